//! Whole exchanges: what the centre writes is framed, received byte by byte, handed from station
//! to station to the end, and read back. Every step is compared, and goes on from the one before.

use super::station::{call, Station};
use super::{dry_run::run, frame::frame, read_reply::heard, receive::Receive};
use crate::answer::heard::MESSAGE;
use crate::call::Stop;
use crate::driver::Driver;
use crate::inputs::telegrams::first_entry;
use crate::inputs::Random;
use crate::lent::Lent;
use hanraquin::{REGISTERS, ROUTE, STX};

/// Exchanges over every number of stations, in nets that mostly have all the stations of the route.
pub fn generate(random: &mut Random, driver: &mut Driver) -> Result<(), Stop> {
    for stations in (1..=ROUTE).flat_map(|stations| [stations; 12]) {
        exchange(random, driver, stations)?;
    }
    Ok(())
}

fn exchange(random: &mut Random, driver: &mut Driver, stations: usize) -> Result<(), Stop> {
    let route = random.route(stations);
    let request = random.exchange(route.clone());
    let lost = if random.once_in(8) { 1 + random.below(stations) } else { 0 };
    let (addresses, mut tables) = random.net(&route[lost..]);

    let outcome = driver.compare(&request)?;
    let written = outcome.after.out[..outcome.value()].to_vec();
    let mut last = over_the_cable(random, driver, &written)?;
    let whole = driver.compare(&run(last.clone(), addresses.clone(), tables.clone()))?;

    let mut count = 1;
    while let Some(own) = addresses.iter().position(|&own| own == first_entry(&last)) {
        let table = &mut tables[REGISTERS * own..REGISTERS * (own + 1)];
        let outcome = driver.compare(&Station {
            registers: (&*table).into(),
            out: Lent::output(1024 + random.below(100)),
            ..call(last.clone())
        })?;
        table.copy_from_slice(&outcome.after.registers);
        // What the centre hears on the way is not for it.
        driver.compare(&heard(last.clone()))?;
        if !outcome.is_done() {
            break;
        }
        last = outcome.after.out[..outcome.value()].to_vec();
        count += 1;
    }

    // The dry run is the same journey.
    let (played, length) = (&whole.after, last.len());
    assert_eq!(played.result[0], count, "transmissions of {written:02X?}");
    assert_eq!(played.result[2] as usize, length, "length of the last");
    assert_eq!(played.out[..length], last, "the last telegram");
    assert_eq!(*played.tables, tables, "tables after {written:02X?}");

    let last = over_the_cable(random, driver, &last)?;
    let reply = driver.compare(&heard(last))?;
    if reply.is_done() {
        assert_eq!(reply.after.route[..stations], route, "the route");
        assert_eq!(reply.after.run[0], request.read_start, "the read start");
    }
    Ok(())
}

/// Frames data, and feeds STX and the frame to a receiving half; gives the message.
fn over_the_cable(random: &mut Random, driver: &mut Driver, data: &[u8]) -> Result<Vec<u8>, Stop> {
    let framed = driver.compare(&frame(data, 2 * data.len() + 3 + random.below(10)))?;
    let places = random.pick(&[data.len(), 1024, 1030]);
    let mut half = Receive { state: vec![0; 3].into(), event: STX.into(), buffer: Lent::output(places) };
    let mut outcome = driver.compare(&half)?;
    for &byte in &framed.after.out[..framed.value()] {
        half = outcome.after;
        half.event = byte.into();
        outcome = driver.compare(&half)?;
    }
    let message = outcome.after.buffer[..data.len()].to_vec();
    assert_eq!(outcome.value(), MESSAGE + data.len(), "the message");
    assert_eq!(message, data, "the message");
    Ok(message)
}
