//! Endpoints that are made in blocks of any bytes.

use crate::calls::Make;
use crate::endpoint::{Role, BLOCK, LIMITS};
use crate::generate::{add, Calls};
use crate::random::Random;

/// Limits around the ends of the range and of other ranges.
const LIMITS_TO_TRY: [u32; 18] = [
    0,
    1,
    50,
    999_998,
    999_999,
    1_000_000,
    1_000_001,
    1_048_576,
    16_777_216,
    16_777_217,
    49_999_999,
    50_000_000,
    50_000_001,
    52_428_800,
    1 << 31,
    (1 << 31) + 1_000_000,
    u32::MAX - 1,
    u32::MAX,
];

/// Every flow with limits around every edge, and each bit of a limit alone.
pub fn every_flow_and_limit(random: &mut Random) -> Calls {
    let mut calls = Calls::new();
    for flow in 0..=255 {
        for limit in LIMITS_TO_TRY {
            add(&mut calls, Make { role: Role::Client, block: random.bytes(BLOCK), flow, limit });
        }
        add(&mut calls, Make { role: Role::Server, block: random.bytes(BLOCK), flow, limit: 0 });
    }
    for bit in 0..32 {
        for flow in [1, 2] {
            let limit = 1_000_000 ^ 1 << bit;
            add(&mut calls, Make { role: Role::Client, block: random.bytes(BLOCK), flow, limit });
        }
    }
    calls
}

/// Blocks of every length, with flows and limits that are good and bad.
pub fn every_length(random: &mut Random) -> Calls {
    let mut calls = Calls::new();
    for length in 0..=2 * BLOCK + 2 {
        for role in Role::ALL {
            for flow in [0, 1, 2, 3] {
                let limit = random.choose(&LIMITS_TO_TRY);
                add(&mut calls, Make { role, block: random.bytes(length), flow, limit });
            }
        }
    }
    calls
}

/// Endpoints of any flow and limit, mostly good ones, in blocks of any bytes.
pub fn random_makes(random: &mut Random) -> Calls {
    let mut calls = Calls::new();
    for _ in 0..150 {
        let flow = if random.one_in(8) { random.byte() } else { random.between(1, 2) as u8 };
        let limit = match random.between(0, 7) {
            0 => random.number() as u32,
            1 => (random.number() >> random.between(32, 63)) as u32,
            2 => random.choose(&LIMITS_TO_TRY),
            _ => random.between(*LIMITS.start() as usize, *LIMITS.end() as usize) as u32,
        };
        let length = if random.one_in(10) { random.between(0, 130) } else { BLOCK };
        let role = random.choose(&Role::ALL);
        add(&mut calls, Make { role, block: random.bytes(length), flow, limit });
    }
    calls
}
