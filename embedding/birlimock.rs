//! The static library in Rust: a meter that owns its state buffer, and its calls as safe methods. Each answers what
//! include/birlimock.h says; a refusal is the `Err` of its number. `layout` has the places of a state's fields.
#![allow(dead_code)]

#[path = "layout.rs"]
pub mod layout;

pub use layout::STATE_SIZE;

mod library {
    unsafe extern "C" {
        pub fn birlimock_version() -> u32;
        pub fn birlimock_state_size() -> usize;
        pub fn birlimock_new(
            state: *mut u8, state_len: usize, device: *const u8, device_len: usize, title: *const u8, title_len: usize,
            v_title: *const u8, v_title_len: usize, h_title: *const u8, h_title_len: usize,
        ) -> u8;
        pub fn birlimock_give_registers(state: *mut u8, state_len: usize, registers: *const u8, registers_len: usize) -> u8;
        pub fn birlimock_set_value(state: *mut u8, state_len: usize, name: *const u8, name_len: usize, value: u32) -> u8;
        pub fn birlimock_set_columns(state: *mut u8, state_len: usize, names: *const u8, names_len: usize) -> u8;
        pub fn birlimock_set_period(state: *mut u8, state_len: usize, period: u32) -> u8;
        pub fn birlimock_tick(state: *mut u8, state_len: usize, clock: *const u8, clock_len: usize) -> u8;
        pub fn birlimock_set_p5(state: *mut u8, state_len: usize, held: u32) -> u8;
        pub fn birlimock_power_up(state: *mut u8, state_len: usize) -> u8;
        pub fn birlimock_receive(
            state: *mut u8, state_len: usize, frame: *const u8, frame_len: usize, guk: *const u8, guk_len: usize,
            ak: *const u8, ak_len: usize, challenge: *const u8, challenge_len: usize, reply: *mut u8, reply_len: usize,
            sent: *mut usize,
        ) -> u8;
    }
}

/// The version of the library that this file belongs to, as `BIRLIMOCK_VERSION` of the header has it.
pub const VERSION: u32 = 30001;
pub const REPLY_ROOM: usize = 779;

/// Whether the library that was linked is the one that this file belongs to.
pub fn fits() -> bool {
    unsafe { library::birlimock_version() == VERSION && library::birlimock_state_size() == STATE_SIZE }
}

/// A meter. Its state is plain bytes, to be kept and brought back as they are.
#[derive(Clone)]
pub struct Meter {
    pub state: [u8; STATE_SIZE],
}

/// What is lent to a frame call besides the frame.
pub struct Lent<'a> {
    pub guk: &'a [u8],
    pub ak: &'a [u8],
    pub challenge: &'a [u8],
}

fn told(number: u8) -> Result<(), u8> {
    if number == 0 {
        Ok(())
    } else {
        Err(number)
    }
}

// Each pointer and length below come from one slice, and what is written is borrowed for that alone.
impl Meter {
    pub fn new(device: &[u8], title: &[u8], v_title: &[u8], h_title: &[u8]) -> Result<Meter, u8> {
        let mut meter = Meter { state: [0; STATE_SIZE] };
        let s = &mut meter.state;
        told(unsafe {
            library::birlimock_new(
                s.as_mut_ptr(), s.len(), device.as_ptr(), device.len(), title.as_ptr(), title.len(), v_title.as_ptr(),
                v_title.len(), h_title.as_ptr(), h_title.len(),
            )
        })?;
        Ok(meter)
    }

    pub fn give_registers(&mut self, records: &[u8]) -> Result<(), u8> {
        let s = &mut self.state;
        told(unsafe { library::birlimock_give_registers(s.as_mut_ptr(), s.len(), records.as_ptr(), records.len()) })
    }

    pub fn set_value(&mut self, name: &[u8], value: u32) -> Result<(), u8> {
        let s = &mut self.state;
        told(unsafe { library::birlimock_set_value(s.as_mut_ptr(), s.len(), name.as_ptr(), name.len(), value) })
    }

    pub fn set_columns(&mut self, names: &[u8]) -> Result<(), u8> {
        let s = &mut self.state;
        told(unsafe { library::birlimock_set_columns(s.as_mut_ptr(), s.len(), names.as_ptr(), names.len()) })
    }

    pub fn set_period(&mut self, period: u32) -> Result<(), u8> {
        let s = &mut self.state;
        told(unsafe { library::birlimock_set_period(s.as_mut_ptr(), s.len(), period) })
    }

    pub fn tick(&mut self, clock: &[u8]) -> Result<(), u8> {
        let s = &mut self.state;
        told(unsafe { library::birlimock_tick(s.as_mut_ptr(), s.len(), clock.as_ptr(), clock.len()) })
    }

    pub fn set_p5(&mut self, held: bool) -> Result<(), u8> {
        let s = &mut self.state;
        told(unsafe { library::birlimock_set_p5(s.as_mut_ptr(), s.len(), u32::from(held)) })
    }

    pub fn power_up(&mut self) -> Result<(), u8> {
        let s = &mut self.state;
        told(unsafe { library::birlimock_power_up(s.as_mut_ptr(), s.len()) })
    }

    /// The number, 0 or a refusal's, and how many bytes of the reply room go out.
    pub fn receive(&mut self, frame: &[u8], lent: &Lent, reply: &mut [u8]) -> (u8, usize) {
        let s = &mut self.state;
        let mut sent = 0;
        let number = unsafe {
            library::birlimock_receive(
                s.as_mut_ptr(), s.len(), frame.as_ptr(), frame.len(), lent.guk.as_ptr(), lent.guk.len(),
                lent.ak.as_ptr(), lent.ak.len(), lent.challenge.as_ptr(), lent.challenge.len(), reply.as_mut_ptr(),
                reply.len(), &mut sent,
            )
        };
        (number, sent)
    }
}
