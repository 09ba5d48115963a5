//! Made-up states with one change: mostly a fault, by which they are out of range, now and then none. Which it is, the second
//! program says.
use crate::chance::Chance;
use crate::second::buffered::{Walk, MOST_CAPACITY};
use crate::second::disks::Disks;
use crate::second::sluices::Sluices;
use crate::second::survey::{self, MOST_SLUICES};

/// A walk with one change. Before one of the sluices the other fields are often put to rest, so that they cannot be at fault.
pub fn walk(chance: &mut Chance, mut walk: Walk) -> Walk {
    if chance.once_in(3) {
        own_field(chance, &mut walk);
        return walk;
    }
    if !chance.once_in(3) {
        rest(&mut walk);
    }
    sluices(chance, &mut walk.sluices);
    walk
}

/// Values that are in range beside any moving sluices.
fn rest(walk: &mut Walk) {
    walk.counter = [0; MOST_SLUICES + 1];
    walk.place = 1;
    walk.entry = [1; MOST_CAPACITY];
    (walk.moves, walk.steps) = (0, 0);
}

pub fn most_steps(walk: &Walk) -> u64 {
    2 * walk.moves + if walk.ended { 2 } else { 0 }
}

/// A field that the buffered engine alone has, mostly wrong by one.
fn own_field(chance: &mut Chance, walk: &mut Walk) {
    let last_place = walk.last_place();
    let i = chance.between(1, last_place);
    let n = walk.sluices.n;
    match chance.below(8) {
        0 => walk.capacity = chance.pick(&[0, 33, 255]),
        1 => walk.counter[i - 1] = walk.count(i),
        2 => walk.place = chance.pick(&[0, last_place + 1, n + 1, n + 2, 255]),
        3 => {
            walk.queued = chance.pick(&[walk.capacity + 1, 33, 255]);
            walk.entry = [1; MOST_CAPACITY];
        }
        4 => {
            walk.queued = walk.queued.max(1);
            walk.entry = [1; MOST_CAPACITY];
            walk.entry[chance.between(0, walk.queued - 1)] = chance.pick(&[0, last_place as u8 + 1, n as u8 + 1, 255]);
        }
        5 => {
            walk.moves = survey::size(&walk.sluices.counts()).expect("the survey can be opened");
            walk.steps = 0;
        }
        6 => walk.moves = u64::MAX - chance.below(3),
        _ => walk.steps = chance.pick(&[most_steps(walk) + 1, most_steps(walk) + 1, u64::MAX]),
    }
}

/// One change of what both engines keep.
fn sluices(chance: &mut Chance, sluices: &mut Sluices) {
    match chance.below(7) {
        0 => number_of_sluices(chance, sluices),
        1 => size(chance, sluices),
        2 => setting(chance, sluices),
        3 => locked_setting(chance, sluices),
        4 => locks(chance, sluices),
        5 => how_many_move(chance, sluices),
        _ => which_move(chance, sluices),
    }
}

/// The moving sluices become the survey's.
fn follow(sluices: &mut Sluices) {
    let numbers = survey::moving(&sluices.counts());
    sluices.set_moving(&numbers);
}

fn sometimes_follow(chance: &mut Chance, sluices: &mut Sluices) {
    if chance.once_in(2) {
        follow(sluices);
    }
}

/// n changed. One sluice more may be locked, and one less may have been: then the moving sluices are right still.
fn number_of_sluices(chance: &mut Chance, sluices: &mut Sluices) {
    let n = sluices.n;
    match chance.below(4) {
        0 => sluices.n = chance.pick(&[0, 49, 255]),
        1 => sluices.n = n - 1,
        2 => sluices.n = n + 1,
        _ => {
            sluices.n = MOST_SLUICES.min(n + 1);
            let x = sluices.n - 1;
            sluices.radix[x] = chance.pick(&[0, 1, 1, 2]);
            (sluices.digit[x], sluices.down[x]) = (0, false);
        }
    }
    sometimes_follow(chance, sluices);
}

/// N over 2^62, each notch below its count still; or a count of 0.
fn size(chance: &mut Chance, sluices: &mut Sluices) {
    if chance.once_in(2) {
        sluices.radix[chance.between(0, sluices.n - 1)] = 0;
        return;
    }
    sluices.n = MOST_SLUICES;
    sluices.radix = [chance.byte(3, 255); MOST_SLUICES];
    sluices.digit = [1; MOST_SLUICES];
    follow(sluices);
}

/// A notch or a direction that its sluice cannot have.
fn setting(chance: &mut Chance, sluices: &mut Sluices) {
    let x = chance.between(0, sluices.n - 1);
    let last = sluices.radix[x] - 1;
    (sluices.digit[x], sluices.down[x]) = match chance.below(4) {
        0 => (0, true),
        1 => (last, false),
        2 => (last + 1, true),
        _ => (255, chance.once_in(2)),
    };
}

/// A sluice gets locked, shut and upward.
fn lock(sluices: &mut Sluices, x: usize) {
    sluices.radix[x] = 1;
    (sluices.digit[x], sluices.down[x]) = (0, false);
}

/// A locked sluice with a notch or a direction that it cannot have; if none is locked one is.
fn locked_setting(chance: &mut Chance, sluices: &mut Sluices) {
    let any = chance.between(0, sluices.n - 1);
    let locked: Vec<usize> = (0..sluices.n).filter(|&x| sluices.radix[x] == 1).collect();
    let x = if locked.is_empty() { any } else { chance.pick(&locked) };
    lock(sluices, x);
    follow(sluices);
    (sluices.digit[x], sluices.down[x]) = chance.pick(&[(0, true), (0, true), (1, false), (1, true), (255, false), (0, false)]);
}

/// A sluice gets locked, or a locked one moves, or all are locked; the moving sluices follow or stay.
fn locks(chance: &mut Chance, sluices: &mut Sluices) {
    let x = chance.between(0, sluices.n - 1);
    if chance.once_in(8) {
        (0..sluices.n).for_each(|x| lock(sluices, x));
    } else if sluices.radix[x] == 1 {
        sluices.radix[x] = chance.pick(&[2, 2, 3, 255]);
    } else {
        lock(sluices, x);
    }
    sometimes_follow(chance, sluices);
}

/// Another number of moving sluices. In the place that one more takes is what could come next, or anything.
fn how_many_move(chance: &mut Chance, sluices: &mut Sluices) {
    let (n, moving) = (sluices.n as u8, sluices.moving);
    let highest = sluices.number[..moving].last().copied().unwrap_or(0);
    if moving < MOST_SLUICES {
        sluices.number[moving] = chance.pick(&[highest + 1, highest, n, n + 1, 0, 255]);
    }
    sluices.moving = chance.pick(&[moving + 1, moving + 1, moving.saturating_sub(1), 0, 48, 49, 255]);
}

/// Other moving sluices, mostly as many as there were.
fn which_move(chance: &mut Chance, sluices: &mut Sluices) {
    let mut numbers = sluices.number[..sluices.moving].to_vec();
    let locked: Vec<u8> = (1..=sluices.n as u8).filter(|number| !numbers.contains(number)).collect();
    if numbers.is_empty() {
        numbers.push(chance.pick(&[0, 1, locked.len() as u8, 255]));
        return sluices.set_moving(&numbers);
    }
    let (x, y) = (chance.between(0, numbers.len() - 1), chance.between(0, numbers.len() - 1));
    match chance.below(10) {
        0 => numbers[x] += 1,
        1 => numbers[x] -= 1,
        2 => numbers.swap(x, y),
        3 => numbers.reverse(),
        4 => numbers[x] = numbers[y],
        5 => numbers[x] = sluices.n as u8 + 1,
        6 => numbers[x] = chance.pick(&[0, 49, 255]),
        7 => _ = numbers.remove(x),
        8 if !locked.is_empty() => numbers[x] = chance.pick(&locked),
        _ if !locked.is_empty() && numbers.len() < MOST_SLUICES => numbers.push(chance.pick(&locked)),
        _ => numbers.rotate_left(1),
    }
    if chance.once_in(2) {
        numbers.sort(); // the order is right, so that the numbers alone are wrong
    }
    sluices.set_moving(&numbers);
}

/// The disks' state with one change; with odd counts a high peg is no fault, nor is it where there is no disk.
pub fn disks(chance: &mut Chance, mut disks: Disks) -> Disks {
    let x = chance.between(0, disks.sluices.n - 1);
    let peg = chance.between(0, MOST_SLUICES.min(disks.sluices.moving + 1) - 1);
    match chance.below(9) {
        0 => disks.turn = chance.pick(&[turns(&disks), turns(&disks), 255]),
        1 => disks.peg[peg] = ring(&disks).unwrap_or(2).saturating_add(1),
        2 => count(&mut disks.sluices, x, 1),
        3 => count(&mut disks.sluices, x, 2),
        4 => {
            let more = chance.byte(1, 2);
            count(&mut disks.sluices, x, more);
            follow(&mut disks.sluices);
        }
        _ => sluices(chance, &mut disks.sluices),
    }
    disks
}

/// A count grows; the setting is in range still, but for a locked sluice that is one no more.
fn count(sluices: &mut Sluices, x: usize, more: u8) {
    sluices.radix[x] = sluices.radix[x].saturating_add(more);
}

/// m where the counts are even: the pegs of the ring are 0 to m.
pub fn ring(disks: &Disks) -> Option<u8> {
    disks.sluices.moving_counts().first().copied().filter(|m| m % 2 == 0)
}

/// How many turns there are.
pub fn turns(disks: &Disks) -> usize {
    ring(disks).unwrap_or(2).into()
}
