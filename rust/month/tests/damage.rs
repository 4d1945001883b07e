//! One file of a complete day is damaged in one place, or is no longer where or what it was. The folder may be called ready to book only if
//! every statement is the one of the whole day, or the engine accepts the damaged file, in its own form, for a quarter of this day.
//! Without exception.
//!
//! `SEED` and `TRIALS` in the environment say what is drawn, and how many damages are tried at least.

use std::fs::{self, File, Permissions};
use std::os::unix::fs::{PermissionsExt, symlink};
use std::path::{Path, PathBuf};

use cases::accepted::{SHAPES, interval_stating, terms};
use cases::file::{INTERVAL_HEAD_PG, INTERVAL_HEAD_PH, Interval, Row, STATEMENT_ROOM, Terms};
use cases::random::Random;
use cases::windless;
use month::{Bar, Quarter, settle_folder};

/// Several quarters of a day have a correction.
const CORRECTIONS: usize = 6;
const CORRECTION_HEAD: usize = 9;
/// The day whose number has the bytes 3 and 4, so that its corrections begin as a zip does.
const ZIP_DAY: u32 = 0x0403;

fn setting(name: &str, otherwise: u64) -> u64 {
    std::env::var(name).map_or(otherwise, |text| text.parse().expect(name))
}

fn settled(interval: &[u8], correction: &[u8]) -> Option<Vec<u8>> {
    let mut statement = [0; STATEMENT_ROOM];
    let length = wheatrudder::settle(interval, correction, &mut statement).ok()?;
    Some(statement[..length].to_vec())
}

/// A complete day: for each quarter an interval file, a correction, empty where there is none, and the statement due.
struct Day {
    number: u32,
    intervals: Vec<Vec<u8>>,
    corrections: Vec<Vec<u8>>,
    due: Vec<Vec<u8>>,
}

impl Day {
    fn draw(random: &mut Random, number: u32) -> Day {
        (0..1_000).find_map(|_| Day::of_some_plants(random, number)).expect("plants whose readings count")
    }

    fn of_both_forms(random: &mut Random, number: u32) -> Day {
        let has = |day: &Day, mark| !day.marked(mark).is_empty();
        let mut days = (0..1_000).map(|_| Day::draw(random, number));
        days.find(|day| has(day, b"PH") && has(day, b"PG")).expect("about half of the days")
    }

    /// The plants of a day are the same in every quarter, so that a correction may be accepted for a quarter that is not its own. Of some
    /// days every interval file states the same terms, of others half of the files do and half state none.
    fn of_some_plants(random: &mut Random, number: u32) -> Option<Day> {
        let (shape, rows) = (random.one_of(&SHAPES), random.within(1..=3));
        let stated = random.once_in(2).then(|| terms(random));
        let plants = interval_stating(random, shape, rows, stated);
        let forms = [stated, stated.or_else(|| Some(terms_of(random, &plants.rows)))];
        let mut day = Day { number, intervals: Vec::new(), corrections: Vec::new(), due: Vec::new() };
        let mut quarters: Vec<u8> = (0..96).collect();
        random.shuffle(&mut quarters);
        for quarter in 0..96 {
            let interval = Interval { day: number, quarter, ..plants.clone() };
            let interval = match random.one_of(&forms) {
                Some(terms) => interval.stating(terms),
                None => interval,
            };
            let interval = metered(random, interval);
            let is_corrected = quarters[..CORRECTIONS].contains(&quarter);
            let correction = if is_corrected { correction(random, &interval)? } else { Vec::new() };
            day.due.push(settled(&interval.bytes(), &correction).expect("accepted"));
            day.intervals.push(interval.bytes());
            day.corrections.push(correction);
        }
        Some(day)
    }

    fn pieces(&self) -> Vec<Piece<'_>> {
        let all = |files: &'_ [Vec<u8>], is_correction| {
            let files = files.iter().enumerate().filter(|(_, bytes)| !bytes.is_empty());
            files.map(move |(quarter, _)| (quarter, is_correction)).collect::<Vec<_>>()
        };
        let places = [all(&self.intervals, false), all(&self.corrections, true)].concat();
        places.into_iter().map(|(quarter, is_correction)| Piece { day: self, quarter, is_correction }).collect()
    }

    /// How many quarters the thermal average rules.
    fn averaged(&self) -> usize {
        let heads = self.due.iter().filter_map(|statement| wheatrudder::head(statement));
        heads.filter(|head| head.averaged).count()
    }

    /// The files that begin with a mark.
    fn marked(&self, mark: &[u8; 2]) -> Vec<Piece<'_>> {
        self.pieces().into_iter().filter(|piece| piece.bytes().starts_with(mark)).collect()
    }
}

/// Terms under which rows are in range that are so under those of document 01.
fn terms_of(random: &mut Random, rows: &[Row]) -> Terms {
    let offers: Vec<&Row> = rows.iter().filter(|row| row.offered == 1).collect();
    let fits = |percent: &u8| {
        let terms = Terms { percent: *percent, ..Terms::OF_01 };
        offers.iter().all(|row| row.minimum <= terms.baseline(row.capacity))
    };
    let percents: Vec<u8> = (41..=50).filter(fits).collect();
    let bids = |tier: usize| offers.iter().map(move |row| u32::from(row.bids[tier]));
    let (lowest, highest) = (|tier| bids(tier).min().unwrap_or(320), |tier| bids(tier).max().unwrap_or(320));
    let mut limits = [0; 4];
    limits[0] = random.within(1..=lowest(0) - 1);
    limits[1] = random.within(highest(0)..=lowest(1));
    limits[2] = random.within(limits[1]..=lowest(1));
    limits[3] = random.within(highest(1).max(limits[2] + 1)..=1_000);
    Terms { percent: random.one_of(&percents), limits: limits.map(|limit| limit as u16) }
}

/// The same interval with other readings: in one of four no wind or sun, and every thermal unit at or below its baseline.
fn metered(random: &mut Random, mut interval: Interval) -> Interval {
    let (low, terms) = (random.once_in(4), interval.terms());
    for row in &mut interval.rows {
        row.metered = if low {
            windless::low_meter(random, row, terms)
        } else {
            random.within(0..=275 * u32::from(row.capacity))
        };
    }
    interval
}

/// A correction of an interval that changes its statement, unless no reading of its rows counts.
fn correction(random: &mut Random, interval: &Interval) -> Option<Vec<u8>> {
    let before = settled(&interval.bytes(), &[]);
    let drawn = |_| {
        let places: Vec<usize> = (0..interval.rows.len()).filter(|_| random.once_in(2)).collect();
        metered(random, interval.clone()).correcting(&places).bytes()
    };
    let matters =
        |correction: &Vec<u8>| settled(&interval.bytes(), correction).is_some_and(|after| Some(after) != before);
    (0..100).map(drawn).find(matters)
}

/// One file of a day.
#[derive(Clone, Copy)]
struct Piece<'a> {
    day: &'a Day,
    quarter: usize,
    is_correction: bool,
}

impl<'a> Piece<'a> {
    fn bytes(self) -> &'a [u8] {
        let files = if self.is_correction { &self.day.corrections } else { &self.day.intervals };
        &files[self.quarter]
    }

    /// A name that says nothing.
    fn plain_name(self) -> String {
        format!("{}{:02}", if self.is_correction { 'b' } else { 'a' }, self.quarter)
    }

    /// The name that says what it is.
    fn full_name(self) -> String {
        let quarter = Quarter { day: self.day.number, quarter: self.quarter as u8 };
        format!("{quarter}.{}", if self.is_correction { "correction" } else { "interval" })
    }
}

/// What is done to a file.
enum Damage {
    /// Its bytes are others.
    Bytes(Vec<u8>),
    /// A link to the file, which lies outside, has its place.
    Link,
    /// Nobody may read it.
    Closed,
    /// It is whole, and has another name.
    Renamed,
}

/// One trial: a damage of a file, and the name that the file has then, within the folder.
struct Trial<'a> {
    piece: Piece<'a>,
    name: String,
    damage: Damage,
}

/// What a run said.
struct Ran {
    ready: bool,
    printed: String,
}

/// Whether a folder may be booked, by what a run said of it. The right answer is the run's own.
type Judge = fn(&Ran) -> bool;

fn right(ran: &Ran) -> bool {
    ran.ready
}

/// Folders of this test's own, removed at its end: a day's files, its statements, and a place outside.
struct Folders(PathBuf);

impl Drop for Folders {
    fn drop(&mut self) {
        let _ = fs::remove_dir_all(&self.0);
    }
}

impl Folders {
    fn new(name: &str, day: &Day) -> Folders {
        // In memory where that can be had: on a disk, thousands of files that replace others take minutes.
        let memory = Some(PathBuf::from("/dev/shm")).filter(|memory| memory.is_dir());
        let work = memory.unwrap_or_else(std::env::temp_dir);
        let folders = Folders(work.join(format!("damage-{}-{name}", std::process::id())));
        let _ = fs::remove_dir_all(&folders.0);
        fs::create_dir_all(folders.files()).expect("a folder");
        fs::create_dir(folders.outside()).expect("a folder");
        for piece in day.pieces() {
            fs::write(folders.files().join(piece.plain_name()), piece.bytes()).expect("written");
        }
        folders
    }

    fn files(&self) -> PathBuf {
        self.0.join("files")
    }

    fn outside(&self) -> PathBuf {
        self.0.join("outside")
    }

    fn run(&self, statements: Option<&Path>) -> Ran {
        let mut printed = Vec::new();
        let ready = settle_folder(&self.files(), statements, &mut printed, Bar::none()).expect("it runs");
        Ran { ready, printed: String::from_utf8(printed).expect("text") }
    }

    /// Every statement of the day that a run writes.
    fn statements(&self, day: &Day) -> Vec<Option<Vec<u8>>> {
        let folder = self.0.join("statements");
        self.run(Some(&folder));
        let all = (0..96).map(|quarter| Quarter { day: day.number, quarter });
        all.map(|quarter| fs::read(folder.join(format!("{quarter}.statement"))).ok()).collect()
    }

    /// Tries a damage and puts the file right again. The answer is whether the folder was called ready, or why it was wrong to do so;
    /// nothing where the damage cannot be done here.
    fn try_out(&self, trial: &Trial, judge: Judge) -> Result<Option<bool>, String> {
        let (whole, path) = (self.files().join(trial.piece.plain_name()), self.files().join(&trial.name));
        fs::remove_file(&whole).expect("removed");
        fs::create_dir_all(path.parent().expect("a folder")).expect("a folder");
        let bytes = match &trial.damage {
            Damage::Bytes(bytes) => bytes,
            _ => trial.piece.bytes(),
        };
        let mut done = true;
        if let Damage::Link = trial.damage {
            let outside = self.outside().join("file");
            fs::write(&outside, bytes).expect("written");
            symlink(outside, &path).expect("a link");
        } else {
            fs::write(&path, bytes).expect("written");
        }
        if let Damage::Closed = trial.damage {
            fs::set_permissions(&path, Permissions::from_mode(0o000)).expect("closed");
            // The system's owner may read everything.
            done = File::open(&path).is_err();
        }
        let ready = judge(&self.run(None));
        let right = !ready || is_lawful(trial, bytes, &self.statements(trial.piece.day));
        fs::remove_file(&path).expect("removed");
        if let Some((folder, _)) = trial.name.split_once('/') {
            fs::remove_dir_all(self.files().join(folder)).expect("removed");
        }
        fs::write(&whole, trial.piece.bytes()).expect("written");
        let said = || format!("{} as {}, {bytes:02x?}", trial.piece.full_name(), trial.name);
        if right || !done { Ok(done.then_some(ready)) } else { Err(said()) }
    }
}

/// Whether a folder with these statements may be called ready: they are those of the whole day; or the damaged file is accepted for a
/// quarter of this day, and they are those of the day with that file in place of the right one.
fn is_lawful(trial: &Trial, bytes: &[u8], statements: &[Option<Vec<u8>>]) -> bool {
    let Piece { day, quarter, is_correction } = trial.piece;
    let mut due: Vec<Option<Vec<u8>>> = day.due.iter().cloned().map(Some).collect();
    if due == statements {
        return true;
    }
    let mark = &trial.piece.bytes()[..2];
    let of_this_day = |bytes: &[u8]| bytes.starts_with(mark) && bytes[2..].starts_with(&day.number.to_le_bytes());
    let Some(&now) = bytes.get(6).filter(|now| of_this_day(bytes) && **now < 96) else { return false };
    let now = usize::from(now);
    let says_otherwise = trial.name == trial.piece.full_name() && now != quarter;
    if is_correction {
        due[quarter] = settled(&day.intervals[quarter], &[]);
        due[now] = settled(&day.intervals[now], bytes);
    } else {
        due[now] = settled(bytes, &day.corrections[now]);
    }
    !says_otherwise && due.iter().all(Option::is_some) && due == statements
}

/// The bytes with each byte changed in turn: to all values among the first nine, to each that differs in one bit, and a few more behind.
fn changed(random: &mut Random, bytes: &[u8]) -> Vec<Vec<u8>> {
    let mut all = Vec::new();
    for (at, &byte) in bytes.iter().enumerate() {
        let mut values: Vec<u8> = if at < CORRECTION_HEAD {
            (0..=255).collect()
        } else {
            let few = [0, 1, 255, b'P', b'K', random.draw() as u8];
            (0..8).map(|bit| byte ^ 1 << bit).chain(few).collect()
        };
        values.sort_unstable();
        values.dedup();
        values.retain(|&value| value != byte);
        all.extend(values.into_iter().map(|value| [&bytes[..at], &[value], &bytes[at + 1..]].concat()));
    }
    all
}

/// The bytes cut at each length, with each byte lost, and with a byte added at each place.
fn shortened_and_lengthened(random: &mut Random, bytes: &[u8]) -> Vec<Vec<u8>> {
    let mut all: Vec<Vec<u8>> = (0..bytes.len()).map(|length| bytes[..length].to_vec()).collect();
    all.extend((0..bytes.len()).map(|at| [&bytes[..at], &bytes[at + 1..]].concat()));
    for at in 0..=bytes.len() {
        for byte in [0, b'P', random.draw() as u8] {
            all.push([&bytes[..at], &[byte], &bytes[at..]].concat());
        }
    }
    all
}

fn damaged(random: &mut Random, bytes: &[u8]) -> Vec<Vec<u8>> {
    [changed(random, bytes), shortened_and_lengthened(random, bytes)].concat()
}

/// The same of the terms alone, of a file that states them.
fn damaged_terms(random: &mut Random, bytes: &[u8]) -> Vec<Vec<u8>> {
    let (before, after) = (&bytes[..INTERVAL_HEAD_PH], &bytes[INTERVAL_HEAD_PG..]);
    let terms = damaged(random, &bytes[INTERVAL_HEAD_PH..INTERVAL_HEAD_PG]);
    terms.into_iter().map(|terms| [before, &terms, after].concat()).collect()
}

/// Some of many.
fn some(random: &mut Random, mut many: Vec<Vec<u8>>, most: usize) -> Vec<Vec<u8>> {
    random.shuffle(&mut many);
    many.truncate(most);
    many
}

/// A name for a damaged file: most often one that says nothing, so that its bytes alone are judged.
fn name(random: &mut Random, piece: Piece) -> String {
    match random.below(10) {
        0 => piece.full_name(),
        1 => "plants.csv".into(),
        2 => "x.txt".into(),
        3 => "late/file".into(),
        _ => piece.plain_name(),
    }
}

/// Trials with a whole file that has another name or place, or is not to be read, each with the answer that is due.
fn moved<'a>(random: &mut Random, piece: Piece<'a>) -> Vec<(Trial<'a>, bool)> {
    let (full, other) = (piece.full_name(), Piece { quarter: (piece.quarter + 1 + random.below(95)) % 96, ..piece });
    let another_day = full.replacen(&full[..10], "2031-07-15", 1);
    let renamed = [
        ("plants.csv", true),
        ("x.txt", true),
        ("late/plants.csv", true),
        (&full, true),
        (&full.to_uppercase(), true),
        (&other.full_name(), false),
        (&format!("copy of {} (1)", &other.full_name()[..14]), false),
        (&another_day, false),
        (&full.replace(".correction", ".statement").replace(".interval", ".correction"), false),
        ("late/deeper/file", false),
    ];
    let renamed = renamed.map(|(name, due)| (name.to_owned(), Damage::Renamed, due));
    let names = || [piece.plain_name(), piece.full_name(), "plants.csv".into(), "x.txt".into()];
    let links = names().map(|name| (name, Damage::Link, false));
    let closed = names().map(|name| (name, Damage::Closed, false));
    let all = renamed.into_iter().chain(links).chain(closed);
    all.map(|(name, damage, due)| (Trial { piece, name, damage }, due)).collect()
}

/// How many damages were tried, how many of them cannot be done here, and how often the folder was called ready; how many quarters of the
/// days the thermal average rules.
#[derive(Default)]
struct Count {
    tried: usize,
    left: usize,
    ready: usize,
    averaged: usize,
}

impl Count {
    /// Counts a trial that was answered rightly; no other may be.
    fn add(&mut self, answer: Result<Option<bool>, String>) -> Option<bool> {
        let answer = answer.unwrap_or_else(|said| panic!("called ready to book: {said}"));
        self.tried += usize::from(answer.is_some());
        self.left += usize::from(answer.is_none());
        self.ready += usize::from(answer == Some(true));
        answer
    }
}

/// All damages of one correction of a day, and a part of those of another, of an interval file of each form that it has, and of the terms
/// that one states.
fn try_day(random: &mut Random, day: &Day, count: &mut Count) {
    let folders = Folders::new("day", day);
    assert!(folders.run(None).ready, "the day is complete");
    count.averaged += day.averaged();
    let files = [b"PK", b"PK", b"PH", b"PG"].map(|mark| day.marked(mark));
    let chosen: Vec<Piece> = files.iter().filter(|files| !files.is_empty()).map(|files| random.one_of(files)).collect();
    for (place, piece) in chosen.into_iter().enumerate() {
        let mut all = damaged(random, piece.bytes());
        if place > 0 {
            all = some(random, all, 200);
        }
        if piece.bytes().starts_with(b"PG") {
            let terms = damaged_terms(random, piece.bytes());
            all.extend(some(random, terms, 400));
        }
        for bytes in all {
            let name = name(random, piece);
            count.add(folders.try_out(&Trial { piece, name, damage: Damage::Bytes(bytes) }, right));
        }
        for (trial, due) in moved(random, piece) {
            let answer = count.add(folders.try_out(&trial, right));
            assert!(answer.is_none_or(|ready| ready == due), "{} as {}", trial.piece.full_name(), trial.name);
        }
    }
    assert!(folders.run(None).ready, "the day is complete again");
}

#[test]
fn a_damaged_file_never_leaves_other_figures_ready_to_book() {
    let (seed, trials) = (setting("SEED", 1), setting("TRIALS", 10_000) as usize);
    let (mut random, mut count, mut days) = (Random::from_seed(seed), Count::default(), 0);
    while count.tried < trials || days < 4 {
        let number = match days % 4 {
            0 => ZIP_DAY,
            1 => random.within(1..=36_523),
            2 => 0,
            _ => 36_524,
        };
        let day = Day::draw(&mut random, number);
        try_day(&mut random, &day, &mut count);
        days += 1;
    }
    let Count { tried, left, ready, averaged } = count;
    println!("{tried} damages of {days} days (seed {seed}): {ready} times ready to book, always rightly");
    println!("in {averaged} of {} quarters the thermal average rules", 96 * days);
    println!("{left} more not tried, since this user may read every file");
    assert!(ready > 0, "a damage that the engine accepts is among them");
    assert!(averaged > 0 && averaged < 96 * days, "quarters with the thermal average and without are among them");
}

/// A number in the last line that was printed: the one in front of the words.
fn counted(ran: &Ran, words: &str) -> usize {
    let last = ran.printed.lines().last().expect("a last line");
    let before = last.split(words).next().expect("something");
    before.trim_end().rsplit([' ', '(']).next().and_then(|number| number.parse().ok()).expect(words)
}

/// Judges that are wrong, each in one way: the test has to find them out.
#[test]
fn wrong_judges_are_found_out() {
    fn unknown_is_harmless(ran: &Ran) -> bool {
        counted(ran, "refused") + counted(ran, "not settled") == 0 && ran.printed.contains("; all complete")
    }
    fn unread_is_harmless(ran: &Ran) -> bool {
        unknown_is_harmless(ran) && counted(ran, "of no quarter") == 0
    }
    fn names_say_nothing(ran: &Ran) -> bool {
        unread_is_harmless(ran) && counted(ran, "not read") == 0
    }
    fn other_days_are_harmless(ran: &Ran) -> bool {
        counted(ran, "settled (") == 96 && counted(ran, "of no quarter") + counted(ran, "not read") == 0
    }
    fn days_may_be_short(ran: &Ran) -> bool {
        let left = ["refused", "not settled", "of no quarter", "not read", "named otherwise"];
        left.iter().all(|words| counted(ran, words) == 0)
    }
    let mut random = Random::from_seed(5);
    let day = Day::of_both_forms(&mut random, 9_800);
    let folders = Folders::new("judges", &day);
    let mut found = [0; 6];
    for piece in [b"PH", b"PG", b"PK"].map(|mark| day.marked(mark)[0]) {
        let heads = changed(&mut random, &piece.bytes()[..CORRECTION_HEAD]);
        let rest = &piece.bytes()[CORRECTION_HEAD..];
        let heads = heads.into_iter().map(|head| Damage::Bytes([&head[..], rest].concat()));
        let damages = heads.filter(|_| random.once_in(8)).chain([Damage::Link]).collect::<Vec<Damage>>();
        for damage in damages {
            let name = if random.once_in(2) { piece.plain_name() } else { piece.full_name() };
            let trial = Trial { piece, name, damage };
            let judges: [Judge; 6] = [
                right,
                unknown_is_harmless,
                unread_is_harmless,
                names_say_nothing,
                other_days_are_harmless,
                days_may_be_short,
            ];
            for (judge, found) in judges.into_iter().zip(&mut found) {
                *found += usize::from(folders.try_out(&trial, judge).is_err());
            }
        }
    }
    println!("found out, of the right judge and five wrong ones: {found:?}");
    assert!(found[0] == 0 && found[1..].iter().all(|&found| found > 0), "{found:?}");
}

#[test]
fn what_an_accountant_keeps_beside_the_files_is_no_fault() {
    let mut random = Random::from_seed(3);
    let day = Day::of_both_forms(&mut random, ZIP_DAY);
    let folders = Folders::new("kept", &day);
    let [plain, stating] = [b"PH", b"PG"].map(|mark| day.marked(mark)[0]);
    let statement = |piece: Piece| piece.full_name().replace("interval", "statement");
    let utf16: Vec<u8> = "\u{feff}一号机\t1\r\n二号机\t2\r\n".encode_utf16().flat_map(u16::to_le_bytes).collect();
    let long = [b"%PDF-1.7\n".as_slice(), &random.bytes(50_000)].concat();
    let kept: [(&str, &[u8]); 10] = [
        ("book.xlsx", include_bytes!("files/book.xlsx")),
        ("bill.pdf", &long),
        ("notes.txt", b"Ask the control centre about the third quarter."),
        ("names.csv", b"1,\xd2\xbb\xba\xc5\xbb\xfa\r\n2,\xb6\xfe\xba\xc5\xbb\xfa\r\n"),
        ("wide.csv", &utf16),
        ("plants.csv", "1,一号机,Unit 1\n".as_bytes()),
        ("2026-10-31-q12.pdf", b"%PDF-1.4\n%\xe2\xe3\xcf\xd3\n"),
        (&statement(plain), &day.due[plain.quarter]),
        (&statement(stating), &day.due[stating.quarter]),
        ("late/book", include_bytes!("files/book.xlsx")),
    ];
    fs::create_dir(folders.files().join("late")).expect("a folder");
    for (name, bytes) in kept {
        fs::write(folders.files().join(name), bytes).expect("written");
    }
    let ran = folders.run(None);
    assert!(ran.ready, "{}", ran.printed);
    // The days, the terms of either form, the thermal average, and the counts.
    assert_eq!((counted(&ran, "passed over"), ran.printed.lines().count()), (kept.len(), 5), "{}", ran.printed);
    let averaged = format!("\nthermal average in the baseline's place: {} quarters, ", day.averaged());
    assert!(ran.printed.contains(&averaged), "{averaged} {}", ran.printed);
    // The same, each with its first byte lost: none of them is known any more, but for text.
    for (name, bytes) in kept {
        let path = folders.files().join(name);
        fs::write(&path, &bytes[1..]).expect("written");
        let ran = folders.run(None);
        let still = ["notes.txt", "names.csv", "plants.csv"].contains(&name);
        assert_eq!(ran.ready, still, "{name}: {}", ran.printed);
        fs::write(&path, bytes).expect("written");
    }
}
