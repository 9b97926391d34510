//! Recorded runs against what the standard library writes for the same values.

use std::collections::BTreeSet;
use table_text::{Error, Formatter, FormattingFlags, Run, RunError};

#[derive(Debug)]
struct Panel {
    id: u64,
    name: &'static str,
    cuts: Vec<Cut>,
    marks: BTreeSet<u8>,
}

#[derive(Debug)]
struct Cut(i16, char);

fn record(f: &mut Formatter, p: &Panel) {
    let mut s = f.debug_struct("Panel");
    s.field("id").write_u64_debug(p.id);
    s.field("name").write_str_debug(p.name);
    let mut cuts = s.field("cuts").debug_list();
    for c in &p.cuts {
        let mut cut = cuts.entry().debug_tuple("Cut");
        cut.field().write_i16_debug(c.0);
        cut.field().write_char_debug(c.1);
        cut.finish();
    }
    cuts.finish();
    let mut marks = s.field("marks").debug_set();
    for m in &p.marks {
        marks.entry().write_u8_debug(*m);
    }
    marks.finish();
    s.finish();
}

#[test]
fn records_are_written_as_by_std() {
    let p = Panel {
        id: 7,
        name: "jib \"2\"\n",
        cuts: vec![Cut(-1000, 'é'), Cut(20, '\\')],
        marks: BTreeSet::from([3, 250]),
    };
    for alternate in [false, true] {
        let mut run = Run::new(FormattingFlags::NEW.set_alternate(alternate));
        record(&mut run, &p);
        let expected = if alternate {
            format!("{p:#?}")
        } else {
            format!("{p:?}")
        };
        assert_eq!(run.count(), Ok(expected.len()));
        let mut exact = vec![b'.'; 3 + expected.len()];
        assert_eq!(run.write(&mut exact, 3), Ok(exact.len()));
        assert_eq!(std::str::from_utf8(&exact[3..]), Ok(expected.as_str()));
        let mut short = vec![b'.'; expected.len() - 1];
        let Err(RunError::Refused(refused)) = run.write(&mut short, 0) else {
            panic!("a buffer that is one byte short was not refused");
        };
        assert_eq!(refused.first, Error::NotEnoughSpace);
    }
}

#[test]
fn flags_are_those_of_the_sub_formatter() {
    let mut run = Run::new(FormattingFlags::NEW);
    run.write_u8_debug(255);
    {
        let mut hexadecimal = run.make_formatter(FormattingFlags::NEW.set_lower_hexadecimal());
        hexadecimal.write_i8_debug(-1);
        hexadecimal.write_i8_display(-1);
    }
    run.make_formatter(FormattingFlags::NEW.set_binary().set_alternate(true))
        .write_u8_debug(5);
    run.write_u8_debug(1);
    let mut buf = [0; 16];
    assert_eq!(run.write(&mut buf, 0), Ok(13));
    assert_eq!(&buf[..13], b"255ff-10b1011");
}
