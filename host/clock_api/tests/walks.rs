//! Walks through the safe functions: a list in order over values that pass each entry, a wait again, the check, a refusal.
use clock_api::{entries, voltage_walk, walk, Chip, Entry, Kind, Request, Scale, Shown};

const WORD: u32 = 0x5AA5_A55A;

fn shown(words: &[[u32; 9]]) -> Vec<Shown> {
    words.iter().map(|nine| Shown::from_words(*nine).expect("something shown")).collect()
}

/// The values that pass an entry.
fn passing(entry: &Entry) -> [u32; 2] {
    let mut values = [0; 2];
    for (value, (_, wanted)) in values.iter_mut().zip(entry.fields()) {
        *value = if entry.kind() == Kind::Set { 7 } else { wanted };
    }
    values
}

#[test]
fn a_whole_list() {
    let chip = Chip::three_plls();
    let request = Request { hse: Some(25_000_000), system: Some(250_000_000), ..Request::default() };
    let list: Vec<Entry> = entries(&request, &chip).unwrap().iter().collect();
    let reads: Vec<[u32; 2]> = list.iter().map(passing).collect();
    let mut words = vec![[9; 9]; list.len() + 2];
    assert_eq!(walk(&request, &chip, &reads, &mut words), list.len() + 1);
    let wanted: Vec<Shown> = list.iter().copied().map(Shown::Next).chain([Shown::Finished]).collect();
    assert_eq!(shown(&words[..list.len() + 1]), wanted);
    assert_eq!(words[list.len() + 1], [9; 9]);
}

#[test]
fn a_wait_again_and_the_check() {
    let (chip, request) = (Chip::two_plls(), Request::default());
    let list: Vec<Entry> = entries(&request, &chip).unwrap().iter().collect();
    let wait = list.iter().position(|entry| entry.kind() == Kind::Wait).unwrap();
    let mut reads: Vec<[u32; 2]> = list.iter().map(passing).collect();
    reads.insert(wait, [0, 0]);
    let check = 1 + list.iter().position(|entry| entry.kind() == Kind::Check).unwrap();
    reads[check] = [0, 0];
    let mut words = vec![[0; 9]; reads.len() + 1];
    walk(&request, &chip, &reads, &mut words);
    let all = shown(&words);
    assert_eq!(all[wait], all[wait + 1]);
    assert_eq!(all[check], Shown::Next(list[check - 1]));
    for after in &all[check + 1..] {
        assert!(matches!(after, Shown::Refused(refusal) if refusal.number() == 24));
    }
}

/// As many are shown as there is room and values for, and the rest of the room stays.
#[test]
fn room_and_values() {
    let (chip, request) = (Chip::two_plls(), Request::default());
    let walks: [&dyn Fn(&[[u32; 2]], &mut [[u32; 9]]) -> usize; 2] =
        [&|reads, shown| walk(&request, &chip, reads, shown), &|reads, shown| voltage_walk(Scale::Scale2, reads, shown)];
    for walk in walks {
        for (room, values) in (0..36).map(|k| (k / 6, k % 6)) {
            let mut words = [[WORD; 9]; 8];
            let count = walk(&[[1, 1]; 6][..values], &mut words[1..1 + room]);
            assert_eq!(count, room.min(values + 1));
            assert!(words[1..1 + count].iter().all(|nine| !nine.contains(&WORD)));
            let kept = |nine: &[u32; 9]| *nine == [WORD; 9];
            assert!(kept(&words[0]) && words[1 + count..].iter().all(kept), "room for {room}, {values} values");
        }
    }
}

#[test]
fn a_refused_request() {
    let request = Request { system: Some(250_000_001), ..Request::default() };
    let mut words = [[0; 9]; 3];
    assert_eq!(walk(&request, &Chip::two_plls(), &[[1, 1], [0, 0]], &mut words), 3);
    assert_eq!(words, [[5, 3, 0, 0, 0, 0, 0, 0, 0]; 3]);
}

#[test]
fn to_a_voltage_scale() {
    // ACTVOS holds 3 less the scale: from Scale3 VOS is set, from Scale0 it is not
    let mut words = [[9; 9]; 6];
    assert_eq!(voltage_walk(Scale::Scale0, &[[0, 0], [1, 0], [0, 0], [5, 5], [1, 0]], &mut words), 6);
    let told: Vec<String> = shown(&words).iter().map(|shown| format!("{shown:?}")).collect();
    let wait = "Next(Entry(wait ACTVOSRDY=1))";
    assert_eq!(told, [wait, wait, "Next(Entry(read ACTVOS))", "Next(Entry(set VOS=3))", "Next(Entry(wait VOSRDY=1))", "Finished"]);
    assert_eq!(voltage_walk(Scale::Scale0, &[[1, 0], [3, 0]], &mut words), 3);
    assert_eq!(Shown::from_words(words[2]), Some(Shown::Finished));
}
