//! The call itself: what is judged when, and what is written.

use super::errors::{Error, Planted};
use super::{packing, read, refusal};
use crate::reference::blocks::BLOCK;
use crate::reference::Refusal;

pub struct Call {
    pub planted: Planted,
    pub text: *const u8,
    pub text_length: usize,
    pub number: u32,
    pub out: *mut u8,
    pub out_length: usize,
    pub answer: *mut u32,
    pub answer_length: usize,
}

/// No file is shorter: a header, and a block of places.
const SHORTEST: usize = 2 * BLOCK;

impl Call {
    fn has(&self, error: Error) -> bool {
        self.planted.has(error)
    }

    /// # Safety
    /// Each pointer leads to as many entries as its count says; a few more on both sides are the caller's.
    pub unsafe fn run(&self) -> u32 {
        let enough = self.answer_length >= 4 - usize::from(self.has(Error::ThreeAreEnough));
        // SAFETY: as the caller says, here and below.
        unsafe {
            if !enough && !self.has(Error::AnswerJudgedAfterTheText) {
                self.write_on_a_short_answer();
                return 31;
            }
            let answered = self.answered();
            self.spoil(&answered);
            let refused = answered.as_ref().err().copied();
            if !enough {
                return refused.map_or(31, |refusal| refusal.number);
            }
            if let Ok(file) = &answered {
                self.write(file);
            }
            self.tell(&answered);
            match refused {
                Some(refusal) if refusal.number == 36 && self.has(Error::Returns0On36) => 0,
                Some(refusal) => refusal.number,
                None => u32::from(self.has(Error::Returns1OnSuccess)),
            }
        }
    }

    unsafe fn text_and_behind(&self) -> (&[u8], &[u8]) {
        // SAFETY: behind a lent text lie at least 16 more bytes.
        unsafe {
            let text = std::slice::from_raw_parts(self.text, self.text_length);
            (text, std::slice::from_raw_parts(self.text.add(self.text_length), 16))
        }
    }

    unsafe fn answered(&self) -> Result<Vec<u8>, Refusal> {
        if self.has(Error::OutJudgedFirst) && self.out_length < SHORTEST {
            return Err(refusal(31, 0));
        }
        // SAFETY: as for `run`.
        let (text, behind) = unsafe { self.text_and_behind() };
        let graph = read(self.planted, text, behind).map_err(|refused| {
            let out_first = self.has(Error::OutJudgedBefore36) && self.out_length < SHORTEST;
            if refused.number == 36 && out_first {
                refusal(31, 0)
            } else {
                refused
            }
        })?;
        let file = packing::file(self.planted, self.number, &graph);
        let needed = match self.planted.0 {
            Some(Error::OutNeedsAByteMore) => file.len() + 1,
            Some(Error::OutMayMissAByte) => file.len() - 1,
            Some(Error::OutHeldTo1024) => file.len().min(SHORTEST),
            _ => file.len(),
        };
        if self.out_length < needed {
            if self.has(Error::FileCutOn31) {
                // SAFETY: as for `run`.
                unsafe { self.copy(&file) };
            }
            let told = u32::from(self.has(Error::PlaceToldOn31));
            return Err(refusal(31, told));
        }
        Ok(file)
    }

    /// As much of the file as there is room for.
    unsafe fn copy(&self, file: &[u8]) {
        let count = file.len().min(self.out_length);
        // SAFETY: as for `run`.
        unsafe { std::ptr::copy_nonoverlapping(file.as_ptr(), self.out, count) };
    }

    unsafe fn write(&self, file: &[u8]) {
        // SAFETY: as for `run`.
        unsafe {
            let fill = if self.has(Error::FillNotWritten) { fill_of_last_block(file) } else { 0..0 };
            for (place, &byte) in file.iter().enumerate().take(self.out_length) {
                if !fill.contains(&place) {
                    *self.out.add(place) = byte;
                }
            }
            if self.has(Error::OutClearedBehind) {
                std::slice::from_raw_parts_mut(self.out, self.out_length)[file.len()..].fill(0);
            }
            if self.has(Error::ByteBehindTheFile) && self.out_length > file.len() {
                *self.out.add(file.len()) = 0;
            }
            if self.has(Error::ByteBehindOut) {
                *self.out.add(self.out_length) ^= 0xff;
            }
            if self.has(Error::ByteBeforeOut) {
                *self.out.sub(1) ^= 0xff;
            }
        }
    }

    /// What only an error writes, beside the file and the answer.
    unsafe fn spoil(&self, answered: &Result<Vec<u8>, Refusal>) {
        let refused = answered.as_ref().err().map(|refusal| refusal.number);
        // SAFETY: as for `run`.
        unsafe {
            let out = std::slice::from_raw_parts_mut(self.out, self.out_length);
            match (self.planted.0, refused) {
                (Some(Error::OutClearedOnRefusal), Some(_)) => out.fill(0),
                (Some(Error::OutClearedOn31), Some(31)) => out.fill(0),
                (Some(Error::HeaderWrittenOn36), Some(36)) => {
                    out.iter_mut().take(BLOCK).for_each(|byte| *byte = 1);
                }
                (Some(Error::TextChanged), _) => {
                    let text = std::slice::from_raw_parts_mut(self.text.cast_mut(), self.text_length);
                    text.iter_mut().filter(|byte| **byte == b'\n').for_each(|byte| *byte = 0);
                }
                (Some(Error::TextEndedBy0), _) => *self.text.add(self.text_length).cast_mut() = 0,
                _ => {}
            }
        }
    }

    unsafe fn write_on_a_short_answer(&self) {
        // SAFETY: as for `run`.
        unsafe {
            if self.has(Error::ShortAnswerWritten) {
                std::slice::from_raw_parts_mut(self.answer, self.answer_length).fill(0);
            }
            if self.has(Error::OutWrittenOnAShortAnswer) {
                if let Ok(file) = self.answered() {
                    self.copy(&file);
                }
            }
        }
    }

    unsafe fn tell(&self, answered: &Result<Vec<u8>, Refusal>) {
        // SAFETY: as for `run`.
        let answer = unsafe { std::slice::from_raw_parts_mut(self.answer, self.answer_length) };
        match answered {
            Ok(file) => {
                if !self.has(Error::PlacesStay) {
                    answer[..3].fill(0);
                }
                let length = file.len() / if self.has(Error::LengthInBlocks) { BLOCK } else { 1 };
                answer[3..].iter_mut().take(1).for_each(|entry| *entry = length as u32);
            }
            Err(refusal) => {
                answer[..3].copy_from_slice(&refusal.places);
                if self.has(Error::ColumnTold) && refusal.number == 35 {
                    answer[1] = 1;
                }
                if self.has(Error::NumberTold) {
                    answer[2] = refusal.number;
                }
                let length = if self.has(Error::LengthToldOn31) && refusal.number == 31 { 1_024 } else { 0 };
                if !self.has(Error::LengthStaysOnRefusal) {
                    answer[3..].iter_mut().take(1).for_each(|entry| *entry = length);
                }
            }
        }
        if self.has(Error::FifthCleared) {
            answer.iter_mut().skip(4).for_each(|entry| *entry = 0);
        }
        if self.has(Error::EntryBehindTheAnswer) {
            // SAFETY: as for `run`.
            unsafe { *self.answer.add(self.answer_length) ^= u32::MAX };
        }
    }
}

/// The unused bytes of the last block.
fn fill_of_last_block(file: &[u8]) -> std::ops::Range<usize> {
    let end = file.len() - 4;
    let used = file[..end].iter().rposition(|&byte| byte != 0).map_or(0, |last| last + 1);
    used.max(file.len() - BLOCK)..end
}
