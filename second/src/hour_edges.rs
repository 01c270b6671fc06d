//! Days about the end of the 24th hour, which is no edge, and about that of the 25th, which is the
//! day's; and days whose seconds fall as on a clock that is put back.

use crate::lines::{good_line, joined};

/// Seconds that stand alone: the first six pass, five digits are 13 from 90,000 on, six are 12.
const SECONDS: [usize; 10] = [
    86_398, 86_399, 86_400, 86_401, 89_998, 89_999, 90_000, 90_001, 99_999, 100_000,
];

/// Days of a few lines.
const SHORT: [&[u8]; 21] = [
    // Through the 24th hour's end, within the 25th hour, and to the last second.
    b"E\t86399\ta\nE\t86400\tb\nE\t89999\tc\n",
    b"E\t0\ta\nE\t86400\tb\nE\t86400\tB\n",
    b"E\t86401\ta\nE\t89998\tb\nE\t89999\tb\n",
    b"E\t89999\ta\nE\t89999\tb\n",
    // The second falls: within the 25th hour, out of it and before it.
    b"E\t86401\ta\nE\t86400\tb\n",
    b"E\t89999\ta\nE\t89998\tb\n",
    b"E\t86400\ta\nE\t86399\tb\n",
    b"E\t86399\ta\nE\t86398\tb\n",
    b"E\t86400\ta\nE\t0\tb\n",
    // It falls by an hour, or by a second less as from 2:59:59 to 2:00:00.
    b"E\t10799\ta\nE\t7200\tb\n",
    b"E\t10800\ta\nE\t7200\tb\n",
    b"E\t3600\ta\nE\t0\tb\n",
    b"E\t89999\ta\nE\t86400\tb\n",
    b"E\t89999\ta\nE\t86399\tb\n",
    b"E\t7200\ta\nE\t10799\tb\nE\t7200\tc\n",
    // The day has ended.
    b"E\t89999\ta\nE\t90000\tb\n",
    b"E\t90000\ta\nE\t90000\tb\n",
    b"E\t90000\ta\nE\t89999\tb\n",
    // The first bad line wins.
    b"E\t86401\ta\nE\t86400\tb\nE\t90000\tc\n",
    b"E\t90000\ta\nE\t100000\tb\n",
    b"E\t100000\ta\nE\t90000\tb\n",
];

/// All the days.
pub fn days() -> Vec<Vec<u8>> {
    let alone = SECONDS.map(|second| joined(&[good_line(second, b'q')]));
    let short = SHORT.map(<[u8]>::to_vec);
    alone.into_iter().chain(short).collect()
}
