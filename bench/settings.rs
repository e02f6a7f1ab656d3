// A plain Rust program that does what `settings` does, to measure it against. Nothing here is proved.
use std::io::Read;
use std::process::exit;

fn put(words: &mut [u32; 49], at: usize, word: u32) {
    let open = words[25] == 0x50D8_3AA1;
    match at {
        1..=3 | 10..=12 | 24 | 27 | 29 | 31..=33 | 43..=45 | 47 => {}
        8 | 17 => {
            let first = at - 8;
            words[first + 1] = words[first + 6];
            words[first + 2] = words[first + 7] & 0x3F_FFFF;
        }
        28 | 48 => words[at - 1] &= !word,
        18..=23 if !open => {}
        34 | 36 | 38 => words[at] = word & 0xF_FFFF,
        _ => words[at] = word,
    }
}

fn timing(run: bool, repeat: bool, due: u64) -> String {
    match (run, repeat) {
        (false, _) => "idle".to_string(),
        (true, false) => format!("once {due}"),
        (true, true) => format!("again {due}"),
    }
}

fn bit(word: u32, n: usize) -> bool {
    word >> n & 1 == 1
}

fn wide(high: u32, low: u32) -> u64 {
    u64::from(high) << 32 | u64::from(low)
}

fn refuse(number: u8, at: usize) -> ! {
    println!("refused {number} at {at}");
    exit(1)
}

fn main() {
    let mut list = Vec::new();
    std::io::stdin().take(65_537).read_to_end(&mut list).unwrap();
    if list.len() > 65_536 {
        refuse(8, 8_192);
    }
    if list.len() % 8 != 0 {
        refuse(8, list.len() / 8);
    }
    let mut w = [0; 49];
    (w[0], w[9], w[18], w[19], w[29], w[30]) = (0x6000_2000, 0x6000_2000, 0x0004_C000, 0x0001_0000, 7, 0x4600_0000);
    for (i, record) in list.chunks_exact(8).enumerate() {
        if record[0] > 48 || record[1..4] != [0, 0, 0] {
            refuse(7, i);
        }
        put(&mut w, record[0].into(), u32::from_le_bytes(record[4..8].try_into().unwrap()));
    }
    for c in 0..2 {
        let config = w[9 * c];
        let due = wide(w[9 * c + 5], w[9 * c + 4]);
        println!("timer {c} {} {}", timing(bit(config, 31), bit(config, 29), due), u8::from(bit(w[26], c)));
    }
    for c in 0..3 {
        let conf = w[40 + c];
        let due = if bit(conf, 30) { u64::from(conf & 0x3FF_FFFF) } else { wide(w[34 + 2 * c], w[35 + 2 * c]) & 0xF_FFFF_FFFF_FFFF };
        println!("alarm {c} {} {}", timing(bit(w[30], 24 - c), bit(conf, 30), due), u8::from(bit(w[46], c)));
    }
    let config = w[18];
    let action = |s: usize| config >> (29 - 2 * s) & 3;
    println!(
        "watchdog {} {} {} {} {} {} {} {} {} {}",
        u8::from(bit(config, 31)), action(0), action(1), action(2), action(3), w[19] >> 16, w[20], w[21], w[22], w[23]
    );
}
