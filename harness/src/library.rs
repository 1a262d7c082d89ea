//! The library under test, behind safe functions.
use crate::answer::Doors;

/// The library, if it is linked.
#[cfg(not(feature = "library"))]
pub fn doors() -> Option<Doors> {
    None
}

/// The library, if it is linked.
#[cfg(feature = "library")]
pub fn doors() -> Option<Doors> {
    use linked::{load, load_entry, read, word_test};
    Some(Doors { name: "library", load, load_entry, word_test, read })
}

/// The numbers of include/sheet_loader.h.
#[allow(dead_code)]
pub mod header {
    include!(concat!(env!("OUT_DIR"), "/header.rs"));
}

/// The doors as they are: a status, and numbers in `out`.
#[cfg(feature = "library")]
pub mod raw {
    extern "C" {
        fn sheet_loader_load(
            instrument: usize,
            sheet: *const u8,
            sheet_len: usize,
            out: *mut usize,
            out_len: usize,
        ) -> usize;
        fn sheet_loader_load_entry(
            sheet: *const u8,
            sheet_len: usize,
            out: *mut usize,
            out_len: usize,
        ) -> usize;
        fn sheet_loader_word_test(
            instrument: usize,
            sheet: *const u8,
            sheet_len: usize,
            condition: usize,
            word: *const u8,
            word_len: usize,
            out: *mut usize,
            out_len: usize,
        ) -> usize;
        fn sheet_loader_read(
            instrument: usize,
            sheet: *const u8,
            sheet_len: usize,
            out: *mut usize,
            out_len: usize,
        ) -> usize;
    }

    // Each pointer comes with the length of its slice. The library reads the sheet
    // and the word, and writes to `out` alone. The instrument may be any number.

    pub fn load(instrument: usize, sheet: &[u8], out: &mut [usize]) -> usize {
        let (bytes, numbers) = (sheet.as_ptr(), out.as_mut_ptr());
        unsafe { sheet_loader_load(instrument, bytes, sheet.len(), numbers, out.len()) }
    }

    pub fn load_entry(sheet: &[u8], out: &mut [usize]) -> usize {
        unsafe { sheet_loader_load_entry(sheet.as_ptr(), sheet.len(), out.as_mut_ptr(), out.len()) }
    }

    pub fn word_test(
        instrument: usize,
        sheet: &[u8],
        condition: usize,
        word: &[u8],
        out: &mut [usize],
    ) -> usize {
        unsafe {
            sheet_loader_word_test(
                instrument,
                sheet.as_ptr(),
                sheet.len(),
                condition,
                word.as_ptr(),
                word.len(),
                out.as_mut_ptr(),
                out.len(),
            )
        }
    }

    pub fn read(instrument: usize, sheet: &[u8], out: &mut [usize]) -> usize {
        let (bytes, numbers) = (sheet.as_ptr(), out.as_mut_ptr());
        unsafe { sheet_loader_read(instrument, bytes, sheet.len(), numbers, out.len()) }
    }
}

#[cfg(feature = "library")]
mod linked {
    use super::{header, raw};
    use crate::answer::{Answer, Counts, Fault, Refusal, Verdict};
    use crate::instrument::Instrument;

    pub fn load(on: &Instrument, sheet: &[u8]) -> Verdict {
        let mut out = [0; header::ROOM];
        let status = raw::load(on.number, sheet, &mut out);
        verdict(status, out)
    }

    pub fn load_entry(sheet: &[u8]) -> Verdict {
        let mut out = [0; header::ROOM];
        let status = raw::load_entry(sheet, &mut out);
        verdict(status, out)
    }

    fn verdict(status: usize, out: [usize; header::ROOM]) -> Verdict {
        match status {
            header::ACCEPTED => Verdict::Accepted(out[2]),
            header::REFUSED => Verdict::Refused(refusal(&out)),
            header::UNPROVED => {
                let [_, _, rule, subject, clause, pair, event, place] = out;
                let fault = Fault { clause, pair, event, place };
                Verdict::Unproved { rule, subject, fault }
            }
            status => panic!("the library's loader gave the status {status}"),
        }
    }

    pub fn word_test(on: &Instrument, sheet: &[u8], condition: usize, word: &[u8]) -> Answer {
        let mut out = [0; header::ROOM];
        match raw::word_test(on.number, sheet, condition, word, &mut out) {
            header::YES => Answer::Yes,
            header::REFUSED => Answer::Refused(refusal(&out)),
            header::NO => Answer::No(out[2]),
            status => panic!("sheet_loader_word_test gave the status {status}"),
        }
    }

    pub fn read(on: &Instrument, sheet: &[u8]) -> Result<Counts, Refusal> {
        let mut out = [0; header::ROOM];
        match raw::read(on.number, sheet, &mut out) {
            header::READ_WHOLE => {
                let [_, _, conditions, points, methods, steps, certificates, _] = out;
                Ok(Counts { conditions, points, methods, steps, certificates })
            }
            header::REFUSED => Err(refusal(&out)),
            status => panic!("sheet_loader_read gave the status {status}"),
        }
    }

    fn refusal(out: &[usize; header::ROOM]) -> Refusal {
        let [_, number, place, ..] = *out;
        Refusal { number, place: (place != header::NO_PLACE).then_some(place) }
    }
}
