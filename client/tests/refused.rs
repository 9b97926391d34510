//! What a refused run says: why, at which call, and what it leaves in the buffer.

use table_text::{Call, Each, Error, FormattingFlags, Refused, Run, RunError};

const NEW: FormattingFlags = FormattingFlags::NEW;

fn refused(first: Error, call: Option<(usize, Call)>, number: usize) -> Result<usize, RunError> {
    Err(RunError::Refused(Refused {
        first,
        call,
        number,
    }))
}

#[test]
fn the_call_is_named() {
    let mut run = Run::new(NEW);
    run.write_str("ab");
    run.write_ascii(b"\x80");
    run.write_str("c");
    run.write_ascii_debug(b"\xFF");
    let call = Some((1, Call::Ascii));
    assert_eq!(run.count(), refused(Error::NotAscii, call, 3));
    assert_eq!(run.write(&mut [0; 4], 1), refused(Error::NotAscii, call, 4));
    assert_eq!(
        run.count().unwrap_err().to_string(),
        "call 1 (Ascii) refused with 2 (NotAscii), ended at 3"
    );
}

#[test]
fn a_builder_answers_at_its_finish() {
    let mut run = Run::new(NEW);
    let mut s = run.debug_struct("Move");
    s.field("x").write_i32_debug(1200);
    s.finish();
    assert_eq!(run.count(), Ok(16));
    // The closing brackets do not fit; then not the number; then the field, which the builder keeps.
    let finish = Some((3, Call::Finish));
    assert_eq!(
        run.write(&mut [0; 15], 0),
        refused(Error::NotEnoughSpace, finish, 14)
    );
    assert_eq!(
        run.write(&mut [0; 13], 0),
        refused(Error::NotEnoughSpace, Some((2, Call::SignedDebug)), 12)
    );
    assert_eq!(
        run.write(&mut [0; 8], 0),
        refused(Error::NotEnoughSpace, Some((2, Call::SignedDebug)), 8)
    );
    assert_eq!(
        run.write_each(&mut [0; 8], 0).unwrap().answers,
        [
            Ok(()),
            Ok(()),
            Err(Error::NotEnoughSpace),
            Err(Error::NotEnoughSpace)
        ]
    );
}

#[test]
fn a_cut_character_is_refused_in_writing_only() {
    let mut run = Run::new(NEW);
    run.write_str_range("é", 0..1);
    assert_eq!(run.count(), Ok(1));
    assert_eq!(
        run.write(&mut [0; 4], 2),
        refused(Error::NotOnCharBoundary, Some((0, Call::Str)), 2)
    );
}

#[test]
fn a_cursor_past_the_buffer_is_no_calls_fault() {
    let mut run = Run::new(NEW);
    assert_eq!(
        run.write(&mut [0; 4], 5),
        refused(Error::BadCursor, None, 5)
    );
    assert_eq!(
        run.write_each(&mut [0; 4], 5),
        Ok(Each {
            first: Err(Error::BadCursor),
            number: 5,
            answers: vec![]
        })
    );
    run.write_str("a");
    let error = run.write(&mut [0; 4], 5);
    assert_eq!(error, refused(Error::BadCursor, None, 5));
    assert_eq!(
        error.unwrap_err().to_string(),
        "refused with 9 (BadCursor), ended at 5"
    );
}

#[test]
fn every_answer_is_given() {
    let mut run = Run::new(NEW);
    run.write_str("ab");
    run.write_ascii(b"\x80");
    run.write_str_range("é", 1..2);
    run.write_str("c");
    let answers = |boundary| vec![Ok(()), Err(Error::NotAscii), boundary, Ok(())];
    assert_eq!(
        run.count_each(),
        Ok(Each {
            first: Err(Error::NotAscii),
            number: 4,
            answers: answers(Ok(()))
        })
    );
    let mut buf = *b"......";
    assert_eq!(
        run.write_each(&mut buf, 1),
        Ok(Each {
            first: Err(Error::NotAscii),
            number: 4,
            answers: answers(Err(Error::NotOnCharBoundary))
        })
    );
    assert_eq!(&buf, b".abc..");
}

/// The bytes before the start are kept, and those from the end on: a quoted text with an escape that
/// does not fit leaves none of its own. Pieces of later calls are found between.
#[test]
fn what_a_refusal_leaves_in_the_buffer() {
    let mut run = Run::new(NEW);
    run.write_str("too long");
    run.write_str("ok");
    run.write_str_debug("a\n");
    let mut buf = *b"........";
    assert_eq!(
        run.write(&mut buf, 2),
        refused(Error::NotEnoughSpace, Some((0, Call::Str)), 4)
    );
    assert_eq!(&buf, b"..ok....");
}

#[test]
fn an_answer_without_a_name_keeps_its_number() {
    assert_eq!(Error::from_number(0), Ok(()));
    for number in 1..=u8::MAX {
        let error = Error::from_number(number).unwrap_err();
        assert_eq!(error.number(), number);
        assert_eq!(matches!(error, Error::Other(_)), 9 < number);
    }
    assert_eq!(Error::from_number(77), Err(Error::Other(77)));
    assert_eq!(Error::Other(77).to_string(), "77 (Other(77))");
}

/// `write` plays a refused run a second time for the place; `write_each` plays it once.
#[test]
fn a_run_that_is_played_again_leaves_the_same() {
    for alternate in [false, true] {
        let mut run = Run::new(NEW.set_alternate(alternate));
        let mut s = run.debug_struct("Panel");
        s.field("name").write_str_debug("luff\t\"2\"\u{1}");
        let mut list = s.field("cuts").debug_list();
        list.entry().write_char_debug('\'');
        list.entry().write_str_range("é", 1..2);
        list.entry()
            .make_formatter(NEW.set_binary())
            .write_i8_debug(-1);
        list.finish();
        s.finish();
        run.write_ascii(b"\x80");
        run.write_str("!");
        let whole = 3 + run.count_each().unwrap().number;
        for size in 3..=whole {
            let (mut once, mut twice) = (vec![b'.'; size], vec![b'.'; size]);
            let each = run.write_each(&mut once, 3).unwrap();
            let place = each.answers.iter().position(Result::is_err);
            let Err(RunError::Refused(refused)) = run.write(&mut twice, 3) else {
                panic!("text that is not ASCII was not refused");
            };
            assert_eq!(Err(refused.first), each.first);
            assert_eq!(refused.number, each.number);
            assert_eq!(refused.call.map(|call| call.0), place);
            assert_eq!(once, twice);
            assert_eq!(&once[..3], b"...");
            assert!(once[each.number..].iter().all(|byte| *byte == b'.'));
        }
    }
}
