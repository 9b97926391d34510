//! A run that leaves something open is neither counted nor written.

use std::mem;
use table_text::{Each, Error, FormattingFlags, Run, RunError, Unfinished};

const NEW: FormattingFlags = FormattingFlags::NEW;

/// Counting and writing give an error of their own, and no byte is changed.
fn assert_open(run: &Run, open: usize) {
    let unfinished = Unfinished { open };
    let mut buf = *b"............";
    assert_eq!(run.count(), Err(RunError::Unfinished(unfinished)));
    assert_eq!(
        run.write(&mut buf, 0),
        Err(RunError::Unfinished(unfinished))
    );
    assert_eq!(run.count_each(), Err(unfinished));
    assert_eq!(run.write_each(&mut buf, 0), Err(unfinished));
    assert_eq!(&buf, b"............");
}

#[test]
fn a_builder_that_is_dropped_unfinished() {
    let mut run = Run::new(NEW);
    let mut s = run.debug_struct("MoveToTheNextPanelOfTheSail");
    s.field("x").write_i32_debug(1200);
    assert_open(&run, 1);
    assert_eq!(
        run.count().unwrap_err().to_string(),
        "builders and sub-formatters still open: 1"
    );
}

#[test]
fn every_kind_of_builder() {
    let mut run = Run::new(NEW);
    let _ = run.debug_struct("S");
    assert_open(&run, 1);
    run.clear();
    let _ = run.debug_tuple("T");
    assert_open(&run, 1);
    run.clear();
    let _ = run.debug_list();
    assert_open(&run, 1);
    run.clear();
    let _ = run.debug_set();
    assert_open(&run, 1);
}

#[test]
fn a_builder_that_is_leaked() {
    let mut run = Run::new(NEW);
    let mut list = run.debug_list();
    list.entry().write_u8_debug(1);
    Box::leak(Box::new(list));
    assert_open(&run, 1);
}

#[test]
fn a_sub_formatter_that_is_leaked() {
    let mut run = Run::new(NEW);
    let mut sub = run.make_formatter(NEW.set_binary());
    sub.write_u8_debug(5);
    mem::forget(sub);
    assert_open(&run, 1);
}

#[test]
fn an_inner_builder_that_is_dropped() {
    let mut run = Run::new(NEW);
    let mut s = run.debug_struct("S");
    let mut list = s.field("x").debug_list();
    list.entry().write_u8_debug(1);
    s.finish();
    assert_open(&run, 1);
    run.write_str("more");
    assert_open(&run, 1);
}

#[test]
fn a_builder_that_a_sub_formatter_leaves_open() {
    let mut run = Run::new(NEW);
    let _ = run.make_formatter(NEW).debug_list();
    assert_open(&run, 1);
}

#[test]
fn a_clone_is_as_open_as_its_run() {
    let mut run = Run::new(NEW);
    let _ = run.debug_list();
    assert_open(&run.clone(), 1);
    run.clear();
    assert_eq!(run.clone().count(), Ok(0));
}

#[test]
fn a_run_that_is_cleared_is_closed() {
    let mut run = Run::new(NEW);
    let _ = run.debug_list();
    run.clear();
    assert_eq!(run.count(), Ok(0));
    run.debug_list().finish();
    assert_eq!(run.count(), Ok(2));
    assert_eq!(
        run.count_each(),
        Ok(Each {
            first: Ok(()),
            number: 2,
            answers: vec![Ok(()); 2]
        })
    );
}

/// The closing goes into the other run, which has nothing open: neither run is taken for whole.
#[test]
fn formatters_of_two_runs_that_are_swapped() {
    let mut run = Run::new(NEW);
    let mut other = Run::new(NEW);
    other.write_str("other");
    let mut s = run.debug_struct("S");
    mem::swap(s.field("x"), &mut other);
    s.finish();
    assert_open(&other, 1);
    let Err(RunError::Refused(refused)) = run.count() else {
        panic!("a finish with nothing open was not refused");
    };
    assert_eq!(refused.first, Error::WrongCall);
}
