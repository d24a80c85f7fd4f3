//! The proved monitor, through its C interface, under the ladder and separation without pairs. All unsafe code is here.

use crate::measure::{Reply, Side};
use peer::monitor::Question;
use peer::request::Request;

unsafe extern "C" {
    fn pelugiso_start(monitor: *mut Block, text: *const u8, length: usize) -> Reply;
    fn pelugiso_request(monitor: *mut Block, request: *const Request) -> Reply;
    fn pelugiso_list(
        monitor: *mut Block,
        requests: *const Request,
        count: usize,
        answers: *mut u8,
        room: usize,
    ) -> Reply;
    fn pelugiso_question(monitor: *const Block, question: *const Question) -> Reply;
    fn pelugiso_report(monitor: *const Block, buffer: *mut u8, length: usize) -> Reply;
}

/// The memory of a monitor: as large and aligned as the interface wants, and all zeros while it is blank.
#[derive(Clone)]
#[repr(C, align(16))]
pub struct Block([u8; 65_536]);

impl Block {
    pub fn blank() -> Block {
        Block([0; 65_536])
    }
}

// SAFETY, of each call: the memory is that of a monitor, the numbers are those that the interface names, and each text, list and
// buffer is as long as told.
impl Side for Block {
    fn start(&mut self, text: &[u8]) -> Reply {
        unsafe { pelugiso_start(self, text.as_ptr(), text.len()) }
    }

    fn request(&mut self, request: &Request) -> Reply {
        unsafe { pelugiso_request(self, request) }
    }

    fn list(&mut self, requests: &[Request], answers: &mut [u8]) -> Reply {
        unsafe { pelugiso_list(self, requests.as_ptr(), requests.len(), answers.as_mut_ptr(), answers.len()) }
    }

    fn question(&self, question: &Question) -> Reply {
        unsafe { pelugiso_question(self, question) }
    }

    fn report(&self, buffer: &mut [u8]) -> Reply {
        unsafe { pelugiso_report(self, buffer.as_mut_ptr(), buffer.len()) }
    }
}
