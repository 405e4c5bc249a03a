//! The centre that writes a request.

use super::{given, MEGABYTE, MOST};
use crate::call::{arguments, Call, Compare, Kind, Stop};
use crate::inputs::Random;
use crate::lent::Lent;
use crate::plain;
use hanraquin::ROUTE;
use reference::centre;
use reference::header::is_address;

arguments!(WriteRequest, hanraquin_write_request {
    route: read u8,
    read_start: number u16,
    read_count: number usize,
    write_start: number u16,
    values: read u16,
    out: write u8,
});

impl WriteRequest {
    /// A request with an output that just holds it.
    fn of(route: Vec<u8>, read: (u16, usize), write_start: u16, values: Vec<u16>) -> WriteRequest {
        let (read_start, read_count) = read;
        let (route, values, out) = (route.into(), values.into(), Lent::output(0));
        let request = WriteRequest { route, read_start, read_count, write_start, values, out };
        request.with_output(request.length())
    }

    /// The length of the telegram, if it can be written.
    fn length(&self) -> usize {
        let header = match self.route.len() {
            0..=3 => 6,
            stations => 7 + stations + 1,
        };
        header + 6 + 2 * self.values.len()
    }

    /// The same request with an output of so many places.
    fn with_output(&self, places: usize) -> WriteRequest {
        WriteRequest { out: Lent::output(places), ..self.clone() }
    }

    fn is_extended(&self) -> bool {
        self.route.len() > 3
    }
}

impl Call for WriteRequest {
    const NAME: &'static str = "write_request";
    const PLAIN: Self::Function = plain::write_request;
    const REFERENCE: Self::Function = |route, read_start, read_count, write_start, values, out| {
        given(centre::write_request(route, read_start, read_count, write_start, values, out))
    };
    const KINDS: &'static [Kind<WriteRequest>] = &[
        ("written, extended", |r, o| o.is_done() && r.is_extended()),
        ("written, standard", |_, o| o.is_done()),
        ("refused 5, no station", |r, o| o.refused(5) && r.route.is_empty()),
        ("refused 5, over 31 stations", |r, o| o.refused(5) && r.route.len() > ROUTE),
        ("refused 5, a station out of range", |r, o| {
            o.refused(5) && !r.route.iter().all(|&station| is_address(station))
        }),
        ("refused 5, a station twice", |_, o| o.refused(5)),
        ("refused 11, extended", |r, o| o.refused(11) && r.is_extended()),
        ("refused 11, standard", |_, o| o.refused(11)),
        ("refused 12, read count", |r, o| o.refused(12) && r.read_count > 255),
        ("refused 12, values", |_, o| o.refused(12)),
    ];

    fn generate(random: &mut Random, compare: &mut Compare<WriteRequest>) -> Result<(), Stop> {
        routes(random, compare)?;
        counts(random, compare)?;
        anything(random, compare)?;
        long(random, compare)
    }
}

/// Most stations of a route, and most values, of most inputs.
const PARTS: usize = 300;

impl Random {
    /// A route of different stations, as far as there are so many.
    pub fn route(&mut self, stations: usize) -> Vec<u8> {
        if stations <= ROUTE + 1 {
            return self.block(stations, stations, 0);
        }
        let mut route = self.others(stations, &[]);
        route.resize_with(stations, || self.address());
        route
    }

    /// A request with so many values and an output that just holds it.
    fn request(&mut self, route: Vec<u8>, values: usize) -> WriteRequest {
        let values: Vec<u16> = (0..values).map(|_| self.word()).collect();
        let (read, to) = ((self.word(), self.below(256)), self.word());
        WriteRequest::of(route, read, to, values)
    }

    /// A request over a route that its destination accepts, most often.
    pub fn exchange(&mut self, route: Vec<u8>) -> WriteRequest {
        let [(from, reads), (to, writes)] = self.runs();
        let reads = if self.once_in(8) { self.below(4) } else { reads.into() };
        WriteRequest::of(route, (from, reads), to, self.good_values(to, writes))
    }
}

/// Routes of every length, with few values and with many, and with one station changed.
fn routes(random: &mut Random, compare: &mut Compare<WriteRequest>) -> Result<(), Stop> {
    for stations in (0..=40).chain([239, 240, 241, 255, 256, PARTS]) {
        for values in [0, 255, 256].into_iter().chain([0, 1, 2, 3, 4, 5].repeat(3)) {
            let route = random.route(stations);
            compare(&random.request(route, values))?;
        }
        let good = random.route(stations);
        for route in random.damaged(&good) {
            let values = random.below(3);
            compare(&random.request(route, values))?;
        }
    }
    Ok(())
}

/// Read counts at their limits.
#[rustfmt::skip]
const READ_COUNTS: [u64; 18] = [
    0, 1, 254, 255, 256, 257, 511, 512, 65535, 65536, 65537,
    (1 << 32) - 1, 1 << 32, (1 << 32) + 1, 1 << 63, u64::MAX - 255, u64::MAX - 1, u64::MAX,
];

/// Every read count and every number of values, to the limit and far over it; both at their limits
/// over good routes and others; and outputs of every length.
fn counts(random: &mut Random, compare: &mut Compare<WriteRequest>) -> Result<(), Stop> {
    for (stations, count) in [2, 5].into_iter().flat_map(|n| (0..=1000).map(move |c| (n, c))) {
        let route = random.route(stations);
        compare(&WriteRequest { read_count: count, ..random.request(route.clone(), 1) })?;
        compare(&random.request(route, count % (PARTS + 1)))?;
    }
    for read_count in READ_COUNTS.map(|count| count as usize) {
        for values in [0, 1, 254, 255, 256, 257, 300] {
            let mut routes = [0, 1, 3, 4, 31, 32].map(|n| random.route(n)).to_vec();
            routes.extend([vec![0x00], vec![0x12, 0xF1], vec![0x12, 0x13, 0x14, 0x12]]);
            for route in routes {
                let request = WriteRequest { read_count, ..random.request(route, values) };
                let length = request.length();
                for places in [0, length - 1, length, length + 1, MOST] {
                    compare(&request.with_output(places))?;
                }
            }
        }
    }
    for stations in 0..=34 {
        for values in [0, 1, random.below(12), 255] {
            let route = random.route(stations);
            let request = random.request(route, values);
            let most = request.length() + 2;
            for places in (0..=most).filter(|places| values < 255 || places + 8 > most) {
                compare(&request.with_output(places))?;
            }
        }
    }
    Ok(())
}

/// Requests with faults here and there.
fn anything(random: &mut Random, compare: &mut Compare<WriteRequest>) -> Result<(), Stop> {
    for _ in 0..15_000 {
        let stations = match random.below(4) {
            0 => random.below(6),
            1 => 28 + random.below(6),
            _ => random.below(ROUTE + 1),
        };
        let mut route = random.route(stations);
        if stations > 0 && random.once_in(4) {
            let place = random.below(stations);
            let any = random.pick(&route);
            route[place] = random.pick(&[0x00, 0x01, 0xEF, 0xF0, 0xF1, 0xFF, any, any]);
        }
        let values = match random.below(16) {
            0 => random.pick(&[254, 255, 256, 257, PARTS]),
            _ => random.below(8),
        };
        let mut request = random.request(route, values);
        if random.once_in(8) {
            request.read_count = random.pick(&READ_COUNTS) as usize;
        }
        let length = request.length();
        let (less, more) = (random.below(length), length + random.below(20));
        let places = random.pick(&[less, length - 1, more, length, length, length]);
        compare(&request.with_output(places))?;
    }
    Ok(())
}

/// Lengths that look short if they are cut down.
fn long(random: &mut Random, compare: &mut Compare<WriteRequest>) -> Result<(), Stop> {
    for more in [256, 65536, MEGABYTE] {
        for (stations, values) in [(1 + more, 1), (3 + more, 1), (2, more), (2, 1 + more)] {
            for read_count in [0, 1, 256, usize::MAX] {
                let mut route = random.route(3);
                route.resize(stations, 7);
                let request = WriteRequest { read_count, ..random.request(route, values) };
                compare(&request.with_output(random.pick(&[0, 12, 14, 1024, more])))?;
            }
        }
    }
    Ok(())
}

#[cfg(test)]
mod tests {
    use super::*;
    use crate::driver::found;

    #[test]
    fn mistakes_are_found() {
        // A read count of 256 is taken for 0.
        let smallest = found::<WriteRequest>("the answer", |route, from, count, to, values, out| {
            let count = if count == 256 { 0 } else { count };
            plain::write_request(route, from, count, to, values, out)
        });
        assert_eq!(smallest.read_count, 256);
    }
}
