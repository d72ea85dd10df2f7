// The disk box called from Rust: a safe wrapper, and a short run of it.
mod sys {
    extern "C" {
        pub fn bel_record_size() -> u32;
        pub fn bel_power_on(record: *mut u8, len: usize, head0: u8, head1: u8) -> u32;
        pub fn bel_read_port(record: *mut u8, len: usize, offset: u8) -> u32;
        pub fn bel_write_port(record: *mut u8, len: usize, offset: u8, byte: u8) -> u32;
        pub fn bel_ticks(
            record: *mut u8,
            len: usize,
            image0: *mut u8,
            len0: usize,
            image1: *mut u8,
            len1: usize,
            n: u32,
        ) -> u64;
    }
}

struct Controller {
    record: [u8; 512],
}

impl Controller {
    fn new() -> Controller {
        let mut c = Controller { record: [0; 512] };
        assert!(unsafe { sys::bel_record_size() } as usize <= c.record.len());
        let word = unsafe { sys::bel_power_on(c.record.as_mut_ptr(), c.record.len(), 0, 0) };
        assert_eq!(word, 0);
        c
    }

    fn read(&mut self, offset: u8) -> u32 {
        unsafe { sys::bel_read_port(self.record.as_mut_ptr(), self.record.len(), offset) }
    }

    fn write(&mut self, offset: u8, byte: u8) -> u32 {
        unsafe { sys::bel_write_port(self.record.as_mut_ptr(), self.record.len(), offset, byte) }
    }

    fn ticks(&mut self, image0: &mut [u8], image1: &mut [u8], n: u32) -> (u32, u32) {
        let word = unsafe {
            sys::bel_ticks(
                self.record.as_mut_ptr(),
                self.record.len(),
                image0.as_mut_ptr(),
                image0.len(),
                image1.as_mut_ptr(),
                image1.len(),
                n,
            )
        };
        (word as u32, (word >> 32) as u32)
    }
}

fn main() {
    let mut c = Controller::new();
    // Document 01's port log: line, value, INT, DRQ.
    assert_eq!(c.write(2, 0x0C), 0x10000);
    assert_eq!(c.read(4), 0x10080);
    assert_eq!(c.write(5, 0x10), 0x10000);
    assert_eq!(c.read(4), 0x100D0);
    assert_eq!(c.read(5), 0x10090);
    assert_eq!(c.read(4), 0x10080);
    assert_eq!(c.read(0), 0x10100);
    // Seek of drive 0 to cylinder 2 with SRT 0: two steps of 1000 ticks, then a report. INT is on already.
    for byte in [0x08, 0x08, 0x08, 0x08] {
        c.write(5, byte);
        c.read(5);
        c.read(5);
    }
    for byte in [0x0F, 0x00, 0x02] {
        assert_eq!(c.write(5, byte) & 0x1FF00, 0);
    }
    assert_eq!(c.ticks(&mut [], &mut [], 1999), (0, 1999));
    assert_eq!(c.ticks(&mut [], &mut [], 5000), (0x10000, 1));
    println!("capi call: ok");
}
