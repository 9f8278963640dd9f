//! The largest job, 512 nets and 256 blocks with nearly as many digits as they can have, its blocks in several orders.

use second_router::prng::Prng;

/// How the blocks stand in the job, by track, A and B.
#[derive(Clone, Copy)]
pub enum Order {
    Rising,
    Falling,
    Random,
}

pub const ORDERS: [(&str, Order); 3] = [("rising", Order::Rising), ("falling", Order::Falling), ("random", Order::Random)];

/// The job, always the same but for the order of its blocks. It is in the layout's spacing; so with rising blocks it is its fixed text.
pub fn job_text(order: Order) -> Vec<u8> {
    let mut blocks: Vec<(usize, usize, usize)> = (0..256).map(|i| (65 + i / 4, 1000 + i / 2 % 2, 1022 + i % 2)).collect();
    match order {
        Order::Rising => {}
        Order::Falling => blocks.reverse(),
        Order::Random => Prng::new(1, 5).shuffle(&mut blocks),
    }
    let mut text = "(board\n (rows 1024)\n (tracks 128)\n".to_string();
    for i in 0..512 {
        text.push_str(&format!(" (net {} {} {} 1000 4095)\n", 9488 + i, 1024 - i, 1023 - i));
    }
    for (track, first, last) in blocks {
        text.push_str(&format!(" (block {} {} {})\n", track, first, last));
    }
    (text + ")\n").into_bytes()
}
