// Answers the events of standard input as `ynl run` does: ./run CONFIG < EVENTS
use std::io::BufRead;

#[repr(C)]
struct Handle {
    at: *mut u8,
}

extern "C" {
    fn ynl_open(handle: *mut Handle, config: *const u8, config_length: usize) -> u32;
    fn ynl_apply(handle: *mut Handle, line: *const u8, line_length: usize) -> u32;
    fn ynl_reply(handle: *mut Handle, block: *mut u8, room: usize, length: *mut usize) -> u32;
    fn ynl_close(handle: *mut Handle);
}

pub struct Cluster(Handle);

// One caller at a time is what `&mut self` says.
unsafe impl Send for Cluster {}

impl Cluster {
    /// A cluster of the configuration, or the line that tells why there is none.
    pub fn open(config: &str) -> Result<Cluster, String> {
        let mut cluster = Cluster(Handle { at: std::ptr::null_mut() });
        match unsafe { ynl_open(&mut cluster.0, config.as_ptr(), config.len()) } {
            0 => Ok(cluster),
            _ => Err(cluster.reply()),
        }
    }

    /// The reply to an event, or the line that tells why the line is none.
    pub fn apply(&mut self, line: &str) -> Result<String, String> {
        match unsafe { ynl_apply(&mut self.0, line.as_ptr(), line.len()) } {
            0 => Ok(self.reply()),
            _ => Err(self.reply()),
        }
    }

    fn reply(&mut self) -> String {
        let (mut block, mut length) = (vec![0; 4096], 0);
        while unsafe { ynl_reply(&mut self.0, block.as_mut_ptr(), block.len(), &mut length) } == 4 {
            block.resize(length, 0);
        }
        block.truncate(length);
        String::from_utf8(block).unwrap()
    }
}

impl Drop for Cluster {
    fn drop(&mut self) {
        unsafe { ynl_close(&mut self.0) }
    }
}

fn main() -> Result<(), String> {
    let file = std::env::args().nth(1).ok_or("no configuration")?;
    let mut cluster = Cluster::open(&std::fs::read_to_string(file).map_err(|e| e.to_string())?)?;
    for line in std::io::stdin().lock().lines() {
        println!("{}", cluster.apply(&line.map_err(|e| e.to_string())?)?);
    }
    Ok(())
}
