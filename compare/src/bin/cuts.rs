//! What crates/bench_cuts has to print, worked out by the plain store: a run of a hundred saves, cut at each write.

#[path = "../plain/mod.rs"]
#[allow(dead_code)]
mod plain;

use plain::media::{Card, Medium, Tray};
use plain::store::Store;

/// One byte of a page, through take, write and give back.
fn save<F: Medium, D: Medium>(store: &mut Store<F, D>, page: u32, offset: usize, byte: u8) -> bool {
    let Ok(hold) = store.take(page) else { return false };
    let written = store.write(&hold, offset, &[byte]);
    let _ = store.give_back(&hold);
    written.is_ok()
}

/// The first four pages mostly, and every ninth time one of the others.
fn page_of(i: u32) -> u32 {
    if i % 9 == 8 { 4 + i / 9 % 4 } else { i % 4 }
}

fn saves_done<F: Medium, D: Medium>(store: &mut Store<F, D>) -> u32 {
    let _ = store.mount(2);
    for i in 0..100u32 {
        if !save(store, page_of(i), (i * 7 % 240) as usize, i as u8) {
            return i;
        }
        if i % 10 == 9 {
            let _ = store.checkpoint();
        }
    }
    100
}

fn page_text<F: Medium, D: Medium>(store: &mut Store<F, D>, page: u32) -> String {
    let (mut sum, mut found) = (0u32, 0);
    for offset in 0..240u32 {
        if let Ok(hold) = store.take(page) {
            let mut body = [0u8; 240];
            if let Ok(version) = store.read(&hold, &mut body) {
                sum += (offset + 1) * u32::from(body[offset as usize]);
                found = version;
            }
            let _ = store.give_back(&hold);
        }
    }
    format!(" {found}:{sum}")
}

fn run(charges: (u32, u32), strikes: (u8, u8)) -> String {
    let (mut flash, mut disk) = (vec![0u8; 33 * 257], vec![0u8; 8 * 272]);
    let mut store = Store::new(
        Tray::new(&mut flash, strikes.0, charges.0),
        Card::new(&mut disk, strikes.1, charges.1),
    );
    let saves = saves_done(&mut store);
    store.power_cycle(9000, 9000);
    let mounted = match store.mount(2) {
        Ok(found) => format!("m {} {} {}", found.last, found.live, found.asked),
        Err(_) => "refused".to_string(),
    };
    let pages: String = (0..8).map(|page| page_text(&mut store, page)).collect();
    format!(" {saves} saves, {mounted},{pages}")
}

fn main() {
    for strike in 0..3u8 {
        for charge in 0..110 {
            println!("flash {charge} strike {strike}:{}", run((charge, 9000), (strike, 8)));
        }
        for charge in 0..16 {
            println!("disk {charge} strike {strike}:{}", run((9000, charge), (2, strike * 8)));
        }
    }
}
