// The least that an export can do: it reads a FILE by 65,536 bytes, and writes LENGTH bytes by 4,096 as they come, each copied
// once. What it writes is no text. It is compiled by `make bench WHAT=export`.
//
// usage: floor LENGTH FILE
use std::fs::{File, OpenOptions};
use std::io::{Read, Result, Write};

const PIECE: usize = 65_536;
const BLOCK: usize = 4_096;

/// Writes blocks until as many bytes are written as are due; the last may be shorter once all is read.
fn write_due(out: &mut File, piece: &[u8], block: &mut [u8], written: &mut u64, due: u64, last: bool) -> Result<()> {
    let mut at = 0;
    while *written < due {
        let n = (due - *written).min(BLOCK as u64) as usize;
        if n < BLOCK && !last {
            break;
        }
        if at + n > piece.len() {
            at = 0;
        }
        block[..n].copy_from_slice(&piece[at..at + n]);
        out.write_all(&block[..n])?;
        at += n;
        *written += n as u64;
    }
    Ok(())
}

fn main() -> Result<()> {
    let mut arguments = std::env::args().skip(1);
    let length: u64 = arguments.next().expect("LENGTH is missing").parse().expect("LENGTH is a number");
    let mut source = File::open(arguments.next().expect("FILE is missing"))?;
    let size = source.metadata()?.len();
    let mut out = OpenOptions::new().write(true).open("/dev/stdout")?;
    let (mut piece, mut block) = (vec![0; PIECE], vec![0; BLOCK]);
    let (mut read, mut written) = (0, 0);
    while read < size {
        let n = source.read(&mut piece)? as u64;
        if n == 0 {
            break;
        }
        read += n;
        let due = (u128::from(length) * u128::from(read) / u128::from(size)) as u64;
        write_due(&mut out, &piece, &mut block, &mut written, due, read == size)?;
    }
    Ok(())
}
