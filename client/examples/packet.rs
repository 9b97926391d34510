//! A move and the blade-down that follows it are counted, and go into one packet if both fit: a
//! table that has the one without the other would cut in the wrong place. Sent over UDP on the
//! loopback, received and shown.

use std::error::Error;
use std::net::{Ipv4Addr, UdpSocket};
use std::time::Duration;
use table_text::{Formatter, FormattingFlags, Run};

/// The bytes of a packet.
const PACKET: usize = 96;

struct Order {
    panel: &'static str,
    x: i32,
    y: i32,
    speed: u16,
    blade: u8,
}

fn record_move(f: &mut Formatter, o: &Order) {
    let mut s = f.debug_struct("Move");
    s.field("panel").write_str_debug(o.panel);
    let mut to = s.field("to").debug_tuple("");
    to.field().write_i32_debug(o.x);
    to.field().write_i32_debug(o.y);
    to.finish();
    s.field("speed").write_u16_debug(o.speed);
    s.finish();
}

fn record_blade_down(f: &mut Formatter, o: &Order) {
    let mut s = f.debug_struct("BladeDown");
    let hexadecimal = FormattingFlags::NEW.set_hexadecimal().set_alternate(true);
    s.field("blade")
        .make_formatter(hexadecimal)
        .write_u8_debug(o.blade);
    s.finish();
}

/// Fills packets and sends each when the next text does not fit any more.
struct Sender {
    socket: UdpSocket,
    packet: [u8; PACKET],
    used: usize,
    sent: usize,
}

impl Sender {
    fn put(&mut self, run: &Run) -> Result<(), Box<dyn Error>> {
        let size = run.count()?;
        println!(
            "counted {size} bytes, {} of {PACKET} free",
            PACKET - self.used
        );
        if PACKET - self.used < size {
            self.flush()?;
        }
        self.used = run.write(&mut self.packet, self.used)?;
        Ok(())
    }

    fn flush(&mut self) -> Result<(), Box<dyn Error>> {
        if self.used > 0 {
            self.socket.send(&self.packet[..self.used])?;
            self.sent += 1;
            self.used = 0;
        }
        Ok(())
    }
}

fn main() -> Result<(), Box<dyn Error>> {
    let table = UdpSocket::bind((Ipv4Addr::LOCALHOST, 0))?;
    table.set_read_timeout(Some(Duration::from_secs(5)))?;
    let socket = UdpSocket::bind((Ipv4Addr::LOCALHOST, 0))?;
    socket.connect(table.local_addr()?)?;
    let mut sender = Sender {
        socket,
        packet: [0; PACKET],
        used: 0,
        sent: 0,
    };

    let orders = [
        Order {
            panel: "jib",
            x: 1200,
            y: -340,
            speed: 800,
            blade: 42,
        },
        Order {
            panel: "luff \"2\"",
            x: -7,
            y: 15,
            speed: 650,
            blade: 7,
        },
    ];
    let mut run = Run::new(FormattingFlags::NEW);
    for order in &orders {
        // One run of both, so that they are counted and written together or not at all.
        run.clear();
        record_move(&mut run, order);
        run.write_str("\n");
        record_blade_down(&mut run, order);
        run.write_str("\n");
        sender.put(&run)?;
    }
    sender.flush()?;

    // A packet that is one byte short is refused, and says which call did not fit.
    let size = run.count()?;
    let mut short = vec![0; size - 1];
    println!("one byte short: {}", run.write(&mut short, 0).unwrap_err());

    let mut received = [0; PACKET];
    for number in 1..=sender.sent {
        let n = table.recv(&mut received)?;
        println!("packet {number}, {n} bytes:");
        print!("{}", std::str::from_utf8(&received[..n])?);
    }
    Ok(())
}
