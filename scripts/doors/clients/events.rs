//! Prints the number of each event's kind (yaml_event_type_t), as soon as the event is there, of YAML on standard input; with a
//! word, over the input once it has ended. Run by clients.sh.

use std::ffi::c_void;
use std::io::{self, Read, Write};
use std::mem::MaybeUninit;
use std::{env, slice};
use unsafe_libyaml::*;

unsafe fn read(data: *mut c_void, buffer: *mut u8, size: u64, size_read: *mut u64) -> i32 {
    let input = &mut *data.cast::<Box<dyn Read>>();
    match input.read(slice::from_raw_parts_mut(buffer, size as usize)) {
        Ok(count) => {
            *size_read = count as u64;
            1
        }
        Err(_) => 0,
    }
}

fn main() -> io::Result<()> {
    let mut input: Box<dyn Read> = Box::new(io::stdin());
    if env::args().len() > 1 {
        let mut all = Vec::new();
        input.read_to_end(&mut all)?;
        input = Box::new(io::Cursor::new(all));
    }
    let mut parser = MaybeUninit::<yaml_parser_t>::uninit();
    let mut event = MaybeUninit::<yaml_event_t>::uninit();
    unsafe {
        assert!(yaml_parser_initialize(parser.as_mut_ptr()).ok);
        yaml_parser_set_input(parser.as_mut_ptr(), read, (&mut input as *mut Box<dyn Read>).cast());
        while yaml_parser_parse(parser.as_mut_ptr(), event.as_mut_ptr()).ok {
            let kind = (*event.as_ptr()).type_;
            yaml_event_delete(event.as_mut_ptr());
            if kind == YAML_NO_EVENT {
                break;
            }
            println!("{}", kind as u32);
            io::stdout().flush()?;
        }
        yaml_parser_delete(parser.as_mut_ptr());
    }
    Ok(())
}
