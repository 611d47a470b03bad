//! The calls for C (include/usat.h), on slices.

const STATE_LENGTH: usize = 56_701;
pub const COMMAND_LENGTH: usize = 255;
/// Where the reference of the page wanted stands in the state.
const WANTED: usize = 56_631;

extern "C" {
    fn usat_create(state: *mut u8, state_length: usize) -> u64;
    fn usat_set_environment(
        state: *mut u8,
        state_length: usize,
        number: u8,
        value: *const u8,
        value_length: usize,
    ) -> u64;
    fn usat_load(state: *mut u8, state_length: usize, page: *const u8, page_length: usize) -> u64;
    fn usat_step(
        state: *mut u8,
        state_length: usize,
        command: *mut u8,
        command_length: usize,
    ) -> u64;
    fn usat_run(
        state: *mut u8,
        state_length: usize,
        most: u32,
        command: *mut u8,
        command_length: usize,
    ) -> u64;
    fn usat_respond(
        state: *mut u8,
        state_length: usize,
        response: *const u8,
        response_length: usize,
        command: *mut u8,
        command_length: usize,
    ) -> u64;
    fn usat_end(state: *mut u8, state_length: usize) -> u64;
    fn usat_read(
        state: *const u8,
        state_length: usize,
        number: u8,
        service: *const u8,
        service_length: usize,
        value: *mut u8,
        value_length: usize,
    ) -> u64;
    fn usat_judge(page: *const u8, page_length: usize) -> u64;
}

/// The loader alone: 0 for an accepted page.
pub fn judge(page: &[u8]) -> u64 {
    // SAFETY: the pointer goes with the slice's length.
    unsafe { usat_judge(page.as_ptr(), page.len()) }
}

/// A call's number, taken apart.
#[derive(Clone, Copy)]
pub struct Number(pub u64);

impl Number {
    pub fn answer(self) -> u8 {
        self.0 as u8
    }

    pub fn outcome(self) -> u8 {
        (self.0 >> 8) as u8
    }

    pub fn size(self) -> usize {
        usize::from((self.0 >> 16) as u16)
    }

    pub fn unit(self) -> u8 {
        (self.0 >> 32) as u8
    }

    pub fn tag(self) -> u8 {
        (self.0 >> 40) as u8
    }

    pub fn count(self) -> u32 {
        (self.0 >> 32) as u32
    }
}

/// A state buffer and a command buffer. Each call lends them whole.
pub struct Card {
    state: Vec<u8>,
    command: [u8; COMMAND_LENGTH],
}

impl Default for Card {
    fn default() -> Card {
        let mut card = Card { state: vec![0; STATE_LENGTH], command: [0; COMMAND_LENGTH] };
        card.create();
        card
    }
}

// SAFETY, of every call below: each pointer goes with the length of its own
// slice, and no two of the slices overlap.
impl Card {
    pub fn create(&mut self) -> Number {
        Number(unsafe { usat_create(self.state.as_mut_ptr(), self.state.len()) })
    }

    pub fn set_environment(&mut self, number: u8, value: &[u8]) -> Number {
        let (state, length) = (self.state.as_mut_ptr(), self.state.len());
        Number(unsafe { usat_set_environment(state, length, number, value.as_ptr(), value.len()) })
    }

    pub fn load(&mut self, page: &[u8]) -> Number {
        let (state, length) = (self.state.as_mut_ptr(), self.state.len());
        Number(unsafe { usat_load(state, length, page.as_ptr(), page.len()) })
    }

    pub fn step(&mut self) -> Number {
        let (state, length) = (self.state.as_mut_ptr(), self.state.len());
        Number(unsafe { usat_step(state, length, self.command.as_mut_ptr(), COMMAND_LENGTH) })
    }

    pub fn run(&mut self, most: u32) -> Number {
        let (state, length) = (self.state.as_mut_ptr(), self.state.len());
        Number(unsafe { usat_run(state, length, most, self.command.as_mut_ptr(), COMMAND_LENGTH) })
    }

    pub fn respond(&mut self, response: &[u8]) -> Number {
        let (state, length) = (self.state.as_mut_ptr(), self.state.len());
        let command = self.command.as_mut_ptr();
        Number(unsafe {
            usat_respond(state, length, response.as_ptr(), response.len(), command, COMMAND_LENGTH)
        })
    }

    pub fn end(&mut self) -> Number {
        Number(unsafe { usat_end(self.state.as_mut_ptr(), self.state.len()) })
    }

    pub fn read(&self, number: u8, service: &[u8], value: &mut [u8; COMMAND_LENGTH]) -> Number {
        let (state, length) = (self.state.as_ptr(), self.state.len());
        let (service, service_length) = (service.as_ptr(), service.len());
        let value = value.as_mut_ptr();
        Number(unsafe {
            usat_read(state, length, number, service, service_length, value, COMMAND_LENGTH)
        })
    }

    pub fn command(&self) -> &[u8; COMMAND_LENGTH] {
        &self.command
    }

    /// The reference of the page wanted.
    pub fn wanted(&self) -> &[u8] {
        let length = usize::from(self.state[WANTED]);
        &self.state[WANTED + 1..][..length]
    }
}
