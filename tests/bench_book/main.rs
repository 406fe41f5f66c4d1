// Times the operations of the book in lent words beside plain Rust (a Vec of structs, the same rules) in the same run, and compares
// what they answer. One line for each size of book: nanoseconds of ours, of plain Rust, and the ratio.
use std::collections::HashSet;
use std::hint::black_box;
use std::time::Instant;

// Where the number of the layout stands.
const LAYOUT_AT: usize = 15;
const LAST: u32 = 1_000_000;
// The step of prices from 10,000 up.
const STEP: u32 = 100;

extern "C" {
    fn bench_sound(w: *const u32, n: usize, step: u32, last_id: u32, last_stamp: u32) -> bool;
    fn bench_find(w: *const u32, n: usize, id: u32) -> usize;
    fn bench_best(w: *const u32, n: usize, mark: u32, price: u32) -> usize;
    fn bench_front(w: *const u32, n: usize, mark: u32, price: u32, shares: u32) -> usize;
    fn bench_insert(w: *mut u32, n: usize, id: u32, mark: u32, price: u32, stamp: u32);
    fn bench_remove(w: *mut u32, n: usize, i: usize);
}

struct Words(Vec<u32>);

impl Words {
    fn sound(&self, last_id: u32, last_stamp: u32) -> bool {
        unsafe { bench_sound(self.0.as_ptr(), self.0.len(), STEP, last_id, last_stamp) }
    }

    fn find(&self, id: u32) -> usize {
        unsafe { bench_find(self.0.as_ptr(), self.0.len(), id) }
    }

    fn best(&self, mark: u32, price: u32) -> usize {
        unsafe { bench_best(self.0.as_ptr(), self.0.len(), mark, price) }
    }

    fn front(&self, mark: u32, price: u32, shares: u32) -> usize {
        unsafe { bench_front(self.0.as_ptr(), self.0.len(), mark, price, shares) }
    }

    fn insert(&mut self, id: u32, mark: u32, price: u32, stamp: u32) {
        unsafe { bench_insert(self.0.as_mut_ptr(), self.0.len(), id, mark, price, stamp) }
    }

    fn remove(&mut self, i: usize) {
        unsafe { bench_remove(self.0.as_mut_ptr(), self.0.len(), i) }
    }
}

#[allow(dead_code)]
struct Order {
    id: u32,
    mark: u32,
    limit: u32,
    shares: u32,
    show: u32,
    life: u32,
    slide: u32,
    stamp: u32,
    price: u32,
    entry_bid: u32,
    adjusted: bool,
    used: bool,
    clear: bool,
    market: bool,
    owner: u32,
}

impl Order {
    // Whether a working order of a mark and a price reaches it.
    fn is_reached(&self, mark: u32, price: u32) -> bool {
        if mark == 0 {
            self.mark != 0 && self.price <= price
        } else {
            self.mark == 0 && self.price >= price
        }
    }
}

struct Plain(Vec<Order>);

fn legal(p: u32) -> bool {
    (1..=100_000_000).contains(&p) && (p < 10_000 || p % STEP == 0)
}

fn is_bid(b: u32) -> bool {
    b == 0 || (legal(b) && b <= 100_000_000 - STEP)
}

fn conditions(o: &Order, last_id: u32, last_stamp: u32) -> bool {
    o.id <= last_id
        && o.mark <= 3
        && legal(o.limit)
        && (1..=1_000_000).contains(&o.shares)
        && o.show <= 1
        && o.life == 0
        && o.slide <= 3
        && (o.slide == 0 || o.mark == 2)
        && (1..=last_stamp).contains(&o.stamp)
        && legal(o.price)
        && is_bid(o.entry_bid)
        && (!o.market || (o.mark == 2 && o.limit == 1))
        && o.owner <= 65_535
}

impl Plain {
    #[inline(never)]
    fn sound(&self, last_id: u32, last_stamp: u32, sort: bool) -> bool {
        let mut before = 0;
        for o in &self.0 {
            if o.id <= before || !conditions(o, last_id, last_stamp) {
                return false;
            }
            before = o.id;
        }
        if sort {
            let mut stamps: Vec<u32> = self.0.iter().map(|o| o.stamp).collect();
            stamps.sort_unstable();
            stamps.windows(2).all(|p| p[0] != p[1])
        } else {
            let mut stamps = HashSet::with_capacity(self.0.len());
            self.0.iter().all(|o| stamps.insert(o.stamp))
        }
    }

    #[inline(never)]
    fn find(&self, id: u32) -> usize {
        self.0.binary_search_by_key(&id, |o| o.id).unwrap_or(1000)
    }

    #[inline(never)]
    fn best(&self, mark: u32, price: u32) -> usize {
        let mut best: Option<(usize, &Order)> = None;
        for (i, o) in self.0.iter().enumerate() {
            if !o.is_reached(mark, price) {
                continue;
            }
            let better = best.map_or(true, |(_, x)| {
                let ahead = if mark == 0 { o.price < x.price } else { o.price > x.price };
                ahead || (o.price == x.price && (o.show > x.show || (o.show == x.show && o.stamp < x.stamp)))
            });
            if better {
                best = Some((i, o));
            }
        }
        best.map_or(1000, |(i, _)| i)
    }

    // The orders read until the shares are found, and 1000 more where they are.
    #[inline(never)]
    fn front(&self, mark: u32, price: u32, shares: u32) -> usize {
        let mut found = 0u64;
        for (i, o) in self.0.iter().enumerate() {
            if o.is_reached(mark, price) {
                found += o.shares as u64;
            }
            if found >= shares as u64 {
                return i + 1001;
            }
        }
        self.0.len()
    }

    #[inline(never)]
    fn insert(&mut self, id: u32, mark: u32, price: u32, stamp: u32) {
        let o = Order {
            id,
            mark,
            limit: price,
            shares: 100,
            show: 1,
            life: 0,
            slide: 0,
            stamp,
            price,
            entry_bid: 0,
            adjusted: false,
            used: false,
            clear: false,
            market: false,
            owner: 0,
        };
        if self.0.last().map_or(true, |x| x.id <= id) {
            self.0.push(o);
        } else {
            let i = self.0.partition_point(|x| x.id <= id);
            self.0.insert(i, o);
        }
    }

    #[inline(never)]
    fn remove(&mut self, i: usize) {
        self.0.remove(i);
    }
}

// Nanoseconds a turn, the least of many rounds.
fn time<F: FnMut(u32)>(mut f: F) -> f64 {
    let mut least = f64::MAX;
    for _ in 0..60 {
        let start = Instant::now();
        for i in 0..2000 {
            f(i);
        }
        least = least.min(start.elapsed().as_nanos() as f64 / 2000.0);
    }
    least
}

fn show(name: &str, ours: f64, plain: f64) {
    print!("  {name} {ours:.1} {plain:.1} ({:.2})", ours / plain);
}

fn main() {
    for k in [8u32, 64, 250] {
        let mut words = Words(vec![0; env!("VENUE_WORDS").parse().unwrap()]);
        words.0[LAYOUT_AT] = env!("VENUE_LAYOUT").parse().unwrap();
        let mut plain = Plain(Vec::with_capacity(256));
        let mut seed: u64 = 12345;
        for i in 0..k {
            seed = seed.wrapping_mul(6364136223846793005).wrapping_add(1442695040888963407);
            let r = (seed >> 33) as u32;
            let mark = r & 1;
            let price = if mark == 0 { 9000 - (r >> 8) % 500 } else { 9100 + (r >> 8) % 500 };
            let stamp = i * 7 + 1 + (r >> 20) % 7;
            words.insert(i * 3 + 1, mark, price, stamp);
            plain.insert(i * 3 + 1, mark, price, stamp);
        }
        assert!(words.sound(LAST, LAST) && plain.sound(LAST, LAST, true) && plain.sound(LAST, LAST, false));
        for id in 0..3 * k {
            assert_eq!(words.find(id), plain.find(id));
        }
        for mark in 0..4 {
            for price in 8400..9700 {
                assert_eq!(words.best(mark, price), plain.best(mark, price));
                for shares in [1, 100, 101, 250, 100 * k] {
                    assert_eq!(words.front(mark, price, shares), plain.front(mark, price, shares));
                }
            }
        }
        print!("{k:4} orders:");
        let step = |i: u32| i.wrapping_mul(7919) % (3 * k);
        show("find", time(|i| { black_box(words.find(step(i))); }), time(|i| { black_box(plain.find(step(i))); }));
        show("best", time(|_| { black_box(words.best(0, black_box(9700))); }), time(|_| { black_box(plain.best(0, black_box(9700))); }));
        let all = black_box(1_000_000);
        show("front, a yes by the first sell", time(|_| { black_box(words.front(0, black_box(9700), 100)); }), time(|_| { black_box(plain.front(0, black_box(9700), 100)); }));
        show("front, a no", time(|_| { black_box(words.front(0, black_box(9700), all)); }), time(|_| { black_box(plain.front(0, black_box(9700), all)); }));
        let walk = time(|_| { black_box(words.sound(black_box(LAST), LAST)); });
        show("record walk, beside a sort", walk, time(|_| { black_box(plain.sound(black_box(LAST), LAST, true)); }));
        show("beside a hash set", walk, time(|_| { black_box(plain.sound(black_box(LAST), LAST, false)); }));
        let last = k as usize;
        show(
            "append and remove",
            time(|_| { words.insert(black_box(999), 1, 9300, 9999); words.remove(black_box(last)); }),
            time(|_| { plain.insert(black_box(999), 1, 9300, 9999); plain.remove(black_box(last)); }),
        );
        words.insert(999, 1, 9300, 9999);
        plain.insert(999, 1, 9300, 9999);
        show(
            "remove and insert in front",
            time(|_| { words.remove(black_box(0)); words.insert(black_box(1), 1, 9300, 9998); }),
            time(|_| { plain.remove(black_box(0)); plain.insert(black_box(1), 1, 9300, 9998); }),
        );
        println!();
    }
}
