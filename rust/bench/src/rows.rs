//! Which rows of the tables the library's machine code loads for an event. `bin/rows` runs this under QEMU with
//! `plugin/rows.c`, which says how a load of a row is known and how a copy is told from a look. The tables are lent, so there
//! should be no copy; the stack is watched for one all the same.
//!
//! Many events are measured by one call: the library reads a recording record by record, and all that it loads between the
//! first byte of a record and the first of the next belongs to that event. The judgement of the state comes before them.

use differential::make::image::{Plan, Row};
use std::hint::black_box;
use std::process::ExitCode;
use std::ptr::{addr_of, addr_of_mut};
use tamezohishu::{build, Configuration, Fields, Outcome, Recording, State, REPLY_ROOM, ROOM};

// ---- what is shared with plugin/rows.c, which has the same in the same order ----

const MAGIC: u64 = 0x7365_656e_726f_7773;
const PLUGGED: u64 = 1;
const BEGIN: u64 = 2;
const END: u64 = 3;
const LOOKED: u8 = 1;

#[repr(C)]
#[derive(Clone, Copy, Default)]
struct Column {
    bytes: u64,
    length: u64,
    place: u64,
    whole: u64,
}

/// A load of rows.
#[repr(C)]
#[derive(Clone, Copy, Default)]
struct Load {
    pc: u64,
    /// Where the column begins that it loaded from.
    copy: u64,
    event: i32,
    column: u8,
    row: u8,
    rows: u8,
    was: u8,
}

#[repr(C)]
#[derive(Default)]
struct Mailbox {
    magic: u64,
    command: u64,
    stack: [u64; 2],
    caller: [u64; 2],
    records: u64,
    nrecords: u64,
    columns: [Column; 3],
    loads: u64,
    room: u64,
    count: u64,
    trouble: u64,
}

// ---- tables and events ----

/// The columns, as the plugin numbers them: name, places, where the column stands in the configuration.
const COLUMNS: [(&str, usize, u64); 3] = [
    ("routes", 128, 32),
    ("protected", 32, 416),
    ("faults", 32, 480),
];
const ROUTES: usize = 0;
const PROTECTED: usize = 1;
const FAULTS: usize = 2;

/// The own ids begin here.
const BASE: u16 = 60_000;
/// Own commands that look a fault id up: enable, disable and clear its response.
const ROW_COMMANDS: [(&str, u16); 3] = [
    ("enable", BASE + 4),
    ("disable", BASE + 5),
    ("clear", BASE + 6),
];
/// Ids are so far apart; half of it lies between two.
const APART: u16 = 20;

/// The ids of a table, column by column.
struct Table {
    ids: [Vec<u16>; 3],
}

impl Table {
    /// So many ids in each column. No column holds the beginning of another, so that each is known by its bytes.
    fn new(routes: usize, protected: usize, faults: usize) -> Table {
        let route = |k: usize| 2000 + APART * k as u16;
        Table {
            ids: [
                (0..routes).map(route).collect(),
                (0..protected).map(|k| route(3 * k + 1)).collect(),
                (0..faults).map(|k| 40_000 + APART * k as u16).collect(),
            ],
        }
    }

    /// With so many ids in one column, and what the others need for it.
    fn of(column: usize, n: usize) -> Table {
        match column {
            ROUTES => Table::new(n, 0, 0),
            PROTECTED => Table::new(128, n, 0),
            _ => Table::new(128, 0, n),
        }
    }

    /// The command that answers the fault of a row.
    fn response(&self, row: usize) -> u16 {
        self.ids[ROUTES][row * 3 % self.ids[ROUTES].len()]
    }

    fn load(&self) -> (Configuration, State) {
        let plan = Plan {
            ground: 0x5A17,
            fault: 0x5A18,
            base: BASE,
            routes: (0..)
                .zip(&self.ids[ROUTES])
                .map(|(k, id)| (*id, 1 + k % 31))
                .collect(),
            protected: self.ids[PROTECTED].clone(),
            rows: (0..)
                .zip(&self.ids[FAULTS])
                .map(|(k, fault)| Row {
                    fault: *fault,
                    response: self.response(k),
                    start: 1,
                    latching: 0,
                    arguments: vec![1, 2],
                })
                .collect(),
        };
        Configuration::load(&plan.image()).expect("a good image")
    }

    /// Every id of a column, and one below, between each two and above.
    fn every_id(&self, column: usize) -> Vec<u16> {
        let ids = &self.ids[column];
        let half = APART / 2;
        let below = ids.first().map_or(BASE - 1, |id| id - half);
        let each = ids.iter().flat_map(|id| [*id, id + half]);
        std::iter::once(below).chain(each).collect()
    }
}

/// What is sent.
#[derive(Clone, Copy, PartialEq)]
enum Event {
    Packet(u16),
    /// A packet of which a bit was lost.
    Spoiled(u16),
    /// An own command that acts on a fault row, and the fault id.
    Own(u16, u16),
    Fault(u16),
    Tick,
}

impl Event {
    /// The event that looks an id up in a column.
    fn of(column: usize, id: u16) -> Event {
        match column {
            FAULTS => Event::Fault(id),
            _ => Event::Packet(id),
        }
    }

    fn packet(self) -> Option<Vec<u8>> {
        let (id, argument) = match self {
            Event::Packet(id) | Event::Spoiled(id) => (id, None),
            Event::Own(command, fault) => (command, Some(fault.to_be_bytes())),
            Event::Fault(_) | Event::Tick => return None,
        };
        let fields = Fields {
            apid: 1,
            count: 0,
            id,
            arguments: argument.as_ref().map_or(&[], |argument| argument),
            pads: 0,
        };
        let mut packet = build(&fields).expect("all within limits");
        if matches!(self, Event::Spoiled(_)) {
            packet[7] ^= 1;
        }
        Some(packet)
    }

    fn record(self, recording: &mut Recording) {
        if let Some(packet) = self.packet() {
            recording.packet(&packet).expect("short");
        } else if let Event::Fault(fault) = self {
            recording.fault(fault);
        } else {
            recording.tick();
        }
    }

    /// What it must be answered: where it is not, something else was measured.
    fn outcome(self, table: &Table) -> Outcome {
        let has = |column: usize, id| table.ids[column].contains(&id);
        match self {
            Event::Packet(id) if has(PROTECTED, id) => Outcome::Protected,
            Event::Packet(id) if has(ROUTES, id) => Outcome::Dispatched,
            Event::Packet(_) => Outcome::Unknown,
            Event::Spoiled(_) => Outcome::BadXor,
            Event::Tick => Outcome::Tick,
            Event::Own(_, fault) if has(FAULTS, fault) => Outcome::Done,
            Event::Own(_, _) => Outcome::NoFault,
            Event::Fault(fault) if has(FAULTS, fault) => Outcome::Dispatched,
            Event::Fault(_) => Outcome::UnknownFault,
        }
    }

    /// The rows that the definition names for it, column by column.
    fn named(self, table: &Table) -> [Vec<u8>; 3] {
        let look = |column: usize, id| looks(&table.ids[column], COLUMNS[column].1, id);
        match self {
            Event::Packet(id) if self.outcome(table) == Outcome::Protected => {
                [vec![], look(PROTECTED, id), vec![]]
            }
            Event::Packet(id) => [look(ROUTES, id), look(PROTECTED, id), vec![]],
            Event::Spoiled(_) | Event::Tick => Default::default(),
            Event::Own(command, fault) => [vec![], look(PROTECTED, command), look(FAULTS, fault)],
            Event::Fault(fault) => {
                let row = table.ids[FAULTS].iter().position(|id| *id == fault);
                let response = row.map(|row| look(ROUTES, table.response(row)));
                [response.unwrap_or_default(), vec![], look(FAULTS, fault)]
            }
        }
    }
}

/// The rows that a search looks at, in order, for an id among those in use of a column with so many places. It restates
/// `looks` of crates/state_lookup/specs/Search.antt.
fn looks(ids: &[u16], places: usize, id: u16) -> Vec<u8> {
    let mut seen = Vec::new();
    let mut at = ids.len();
    let mut step = places;
    while step > 0 {
        // The hop stays within the ids, and is taken where the id that it leads to is not below the wanted one.
        if step <= at {
            seen.push((at - step) as u8);
            if ids[at - step] >= id {
                at -= step;
            }
        }
        step /= 2;
    }
    seen
}

// ---- measuring ----

struct Watch {
    mailbox: Box<Mailbox>,
    loads: Vec<Load>,
}

impl Watch {
    /// Copies are looked for below this place on the stack.
    fn new(top: u64) -> Option<Watch> {
        let mut watch = Watch {
            mailbox: Box::default(),
            loads: vec![Load::default(); 1 << 18],
        };
        watch.mailbox.stack = [top - (1 << 17), top];
        watch.mailbox.loads = watch.loads.as_ptr() as u64;
        watch.mailbox.room = watch.loads.len() as u64;
        // SAFETY: places of the mailbox. The plugin sees this store and answers in the next place.
        let plugged = unsafe {
            addr_of_mut!(watch.mailbox.magic).write_volatile(MAGIC);
            addr_of!(watch.mailbox.command).read_volatile() == PLUGGED
        };
        plugged.then_some(watch)
    }

    /// The loads of a call. Records begin at these addresses, and the last ends at the last of them.
    fn call(
        &mut self,
        table: &Table,
        configuration: &Configuration,
        records: &[u64],
        work: impl FnOnce(),
    ) -> Vec<Load> {
        let mut bytes: [Vec<u8>; 3] = Default::default();
        for (column, (_, places, at)) in COLUMNS.iter().enumerate() {
            let ids = &table.ids[column];
            bytes[column] = ids.iter().flat_map(|id| id.to_le_bytes()).collect();
            bytes[column].resize(2 * places, 0);
            self.mailbox.columns[column] = Column {
                bytes: bytes[column].as_ptr() as u64,
                length: bytes[column].len() as u64,
                place: *at,
                // An id or two and zeros might stand anywhere.
                whole: u64::from(ids.len() < 3),
            };
        }
        let caller = configuration as *const Configuration as u64;
        self.mailbox.caller = [caller, caller + size_of::<Configuration>() as u64];
        self.mailbox.records = records.as_ptr() as u64;
        self.mailbox.nrecords = records.len().saturating_sub(1) as u64;
        let mailbox: *mut Mailbox = &mut *self.mailbox;
        // SAFETY: places of the mailbox, and so many loads as the plugin has written.
        unsafe {
            scrub();
            addr_of_mut!((*mailbox).command).write_volatile(BEGIN);
            work();
            addr_of_mut!((*mailbox).command).write_volatile(END);
            assert_eq!(
                addr_of!((*mailbox).trouble).read_volatile(),
                0,
                "trouble in the plugin"
            );
            let count = addr_of!((*mailbox).count).read_volatile() as usize;
            (0..count)
                .map(|k| self.loads.as_ptr().add(k).read_volatile())
                .collect()
        }
    }

    /// The loads of each event, each measured behind the ones before it.
    fn events(&mut self, table: &Table, events: &[Event]) -> Vec<Vec<Load>> {
        self.measured(table, events).1
    }

    /// The loads before the first event, when the state is judged, and those of each event.
    fn measured(&mut self, table: &Table, events: &[Event]) -> (Vec<Load>, Vec<Vec<Load>>) {
        let (configuration, mut state) = table.load();
        let configuration = Box::new(configuration);
        let mut recording = Recording::new();
        let mut ends = vec![0];
        for event in events {
            event.record(&mut recording);
            ends.push(recording.as_bytes().len());
        }
        // One more event, so that the last one has an end.
        recording.tick();
        ends.push(recording.as_bytes().len());
        let start = recording.as_bytes().as_ptr() as u64;
        let records: Vec<u64> = ends.iter().map(|end| start + *end as u64).collect();
        let mut out = vec![0; (events.len() + 1) * REPLY_ROOM];
        let mut outcomes = Vec::new();
        let loads = self.call(table, &configuration, &records, || {
            let piece = state.resume(&configuration, recording.as_bytes(), &mut out);
            outcomes = piece.replies().map(|reply| reply.answer.outcome).collect();
        });
        assert_eq!(outcomes.len(), events.len() + 1, "all events are answered");
        for (event, outcome) in events.iter().zip(&outcomes) {
            assert_eq!(
                *outcome,
                event.outcome(table),
                "the answer to what was sent"
            );
        }
        let mut first = Vec::new();
        let mut by_event = vec![Vec::new(); events.len()];
        for load in loads {
            match usize::try_from(load.event) {
                Err(_) => first.push(load),
                Ok(k) => by_event.get_mut(k).into_iter().for_each(|of| of.push(load)),
            }
        }
        (first, by_event)
    }

    /// How many of the loads of the last call were for a copy, or of a copy.
    fn copies(&self, loads: &[Load]) -> usize {
        let [caller, end] = self.mailbox.caller;
        let lent = |load: &&Load| load.looked() && (caller..end).contains(&load.copy);
        loads.len() - loads.iter().filter(lent).count()
    }
}

impl Load {
    /// Whether it looked at its rows. A copy takes several rows at once: a single one that was put into memory and not used is
    /// a look too, made for nothing.
    fn looked(&self) -> bool {
        self.was == LOOKED || self.rows == 1
    }
}

/// Loads of a column, looks or copies.
fn of(loads: &[Load], column: usize, look: bool) -> impl Iterator<Item = &Load> {
    loads
        .iter()
        .filter(move |load| usize::from(load.column) == column && load.looked() == look)
}

/// How many rows were loaded, each counted as often as it was.
fn rows<'a>(loads: impl Iterator<Item = &'a Load>) -> usize {
    loads.map(|load| usize::from(load.rows)).sum()
}

/// Rows in the order of their loads: `4`, `4-7` for one behind another, `0-31 by 8` where each load takes eight.
fn listed<'a>(loads: impl Iterator<Item = &'a Load>) -> String {
    // Runs of loads of one width: first row, row behind the last, width.
    let mut runs: Vec<(u8, u8, u8)> = Vec::new();
    for load in loads {
        match runs.last_mut() {
            Some((_, behind, width)) if *behind == load.row && *width == load.rows => {
                *behind += load.rows
            }
            _ => runs.push((load.row, load.row + load.rows, load.rows)),
        }
    }
    let words = runs
        .iter()
        .map(|(first, behind, width)| match (behind - first, width) {
            (1, _) => format!("{first}"),
            (_, 1) => format!("{first}-{}", behind - 1),
            _ => format!("{first}-{} by {width}", behind - 1),
        });
    let words: Vec<String> = words.collect();
    if words.is_empty() {
        "none".to_string()
    } else {
        words.join(" ")
    }
}

// ---- what is told ----

pub fn table() -> ExitCode {
    watched(|watch| {
        println!("Ids of a table that one event of tz_lent_resume looks at and copies, and the looks in order (0-31 by 8: each load");
        println!("takes eight rows). Behind them the looks at other tables. Counted are the three columns of ids; of the row that is");
        println!("found the other fields are read besides.");
        println!(
            "{:9} {:>3}  {:8} {:>6}  {:>6} {:>6}  looks",
            "table", "ids", "wanted", "answer", "looked", "copied"
        );
        for (column, sizes) in [
            (ROUTES, vec![1, 4, 16, 64, 128]),
            (PROTECTED, vec![1, 4, 16, 32]),
            (FAULTS, vec![1, 4, 16, 32]),
        ] {
            for n in sizes {
                table_of(watch, column, n);
            }
        }
        println!("All three tables full:");
        full(watch);
        println!();
        println!("Rows that a whole call loads under full tables, looked at + copied, of the caller's configuration and of each copy");
        println!("in the order they were met, if there is one. A step judges the whole state first; tz_lent_resume has one packet.");
        calls(watch);
        true
    })
}

fn table_of(watch: &mut Watch, column: usize, n: usize) {
    let table = Table::of(column, n);
    let every = table.every_id(column);
    let mut wanted = vec![
        ("first", every[1]),
        ("middle", every[2 * (n / 2) + 1]),
        ("last", every[2 * n - 1]),
    ];
    wanted.extend([
        ("below", every[0]),
        ("between", every[2 * (n / 2)]),
        ("above", every[2 * n]),
    ]);
    if n == 1 {
        wanted.retain(|(name, _)| !["middle", "last", "between"].contains(name));
    }
    let mut cases: Vec<(&str, Event)> = wanted
        .iter()
        .map(|(name, id)| (*name, Event::of(column, *id)))
        .collect();
    match column {
        FAULTS => cases.push(("enable", Event::Own(ROW_COMMANDS[0].1, every[2 * n - 1]))),
        ROUTES => cases.extend([
            ("spoiled", Event::Spoiled(every[2 * n - 1])),
            ("tick", Event::Tick),
        ]),
        _ => {}
    }
    lines(watch, &table, column, &cases);
}

/// The events under full tables that look at most rows.
fn full(watch: &mut Watch) {
    let table = Table::new(128, 32, 32);
    let [route, fault] = [table.ids[ROUTES][127], table.ids[FAULTS][31]];
    lines(
        watch,
        &table,
        ROUTES,
        &[
            ("packet", Event::Packet(route)),
            ("fault", Event::Fault(fault)),
        ],
    );
    let own: Vec<(&str, Event)> = ROW_COMMANDS
        .iter()
        .map(|(name, command)| (*name, Event::Own(*command, fault)))
        .collect();
    lines(watch, &table, FAULTS, &own);
}

/// A line for each event: its looks at one column, and behind them those at the others.
fn lines(watch: &mut Watch, table: &Table, column: usize, cases: &[(&str, Event)]) {
    let n = table.ids[column].len();
    let events: Vec<Event> = cases.iter().map(|(_, event)| *event).collect();
    for ((name, event), loads) in cases.iter().zip(watch.events(table, &events)) {
        let mut list = listed(of(&loads, column, true));
        for other in (0..3).filter(|other| *other != column && of(&loads, *other, true).count() > 0)
        {
            list += &format!("; {} {}", COLUMNS[other].0, listed(of(&loads, other, true)));
        }
        let answer = event.outcome(table).number();
        let [looked, copied] = [true, false].map(|look| rows(of(&loads, column, look)));
        println!(
            "{:9} {n:3}  {name:8} {answer:6}  {looked:6} {copied:6}  {list}",
            COLUMNS[column].0
        );
    }
}

/// Public calls, with all that they load.
fn calls(watch: &mut Watch) {
    let table = Table::new(128, 32, 32);
    let (configuration, state) = table.load();
    let configuration = Box::new(configuration);
    let id = table.ids[ROUTES][127];
    let packet = Event::Packet(id).packet().expect("a packet");
    let mut recording = Recording::new();
    recording.packet(&packet).expect("short");
    let mut out = vec![0; REPLY_ROOM.max(ROOM)];
    let fault = table.ids[FAULTS][31];
    let configuration = &*configuration;
    type Step<'a> = Box<dyn FnMut(&mut [u8]) + 'a>;
    let mut steps: Vec<(&str, Step)> = vec![
        (
            "tz_lent_packet",
            Box::new(|out| {
                black_box(state.clone().packet(configuration, &packet, out));
            }),
        ),
        (
            "tz_lent_tick",
            Box::new(|_| {
                black_box(state.clone().tick(configuration));
            }),
        ),
        (
            "tz_lent_fault",
            Box::new(|out| {
                black_box(state.clone().fault(configuration, fault, out));
            }),
        ),
        (
            "tz_lent_resume",
            Box::new(|out| {
                black_box(
                    state
                        .clone()
                        .resume(configuration, recording.as_bytes(), out),
                );
            }),
        ),
    ];
    for (name, step) in &mut steps {
        let loads = watch.call(&table, configuration, &[], || step(&mut out));
        for (column, (column_name, places, _)) in COLUMNS.iter().enumerate() {
            let mut copies: Vec<u64> = Vec::new();
            for load in loads
                .iter()
                .filter(|load| usize::from(load.column) == column)
            {
                if !copies.contains(&load.copy) {
                    copies.push(load.copy);
                }
            }
            let caller = watch.mailbox.caller;
            let told = copies.iter().map(|copy| {
                let [looked, copied] = [true, false]
                    .map(|look| rows(of(&loads, column, look).filter(|load| load.copy == *copy)));
                let whose = if (caller[0]..caller[1]).contains(copy) {
                    "caller's"
                } else {
                    "a copy"
                };
                format!("{whose} {looked} + {copied}")
            });
            let told: Vec<String> = told.collect();
            println!("{name:14}  {column_name:9} {places:3}  {}", told.join(", "));
        }
    }
}

/// Holds the looks against the definition: column by column in tables of each size, and with all tables full. All of them are at
/// the caller's own tables.
pub fn check() -> ExitCode {
    watched(|watch| {
        let columns = (0..3).map(|column| {
            let (name, places, _) = COLUMNS[column];
            let tables = (0..=places).map(|n| {
                let table = Table::of(column, n);
                let every = table.every_id(column);
                let mut events: Vec<Event> =
                    every.iter().map(|id| Event::of(column, *id)).collect();
                if column == FAULTS {
                    events.extend(own_commands(&every));
                }
                events.extend([Event::Spoiled(every[0]), Event::Tick]);
                (table, events)
            });
            check_of(watch, name, tables)
        });
        // Each is checked, whatever one before it came to.
        let columns = columns.fold(true, |all, one| all & one);
        let table = Table::new(128, 32, 32);
        let [routes, faults] = [ROUTES, FAULTS].map(|column| table.every_id(column));
        let mut events: Vec<Event> = routes.into_iter().map(Event::Packet).collect();
        events.extend(faults.iter().map(|id| Event::Fault(*id)));
        events.extend(own_commands(&faults));
        columns & check_of(watch, "all full", std::iter::once((table, events)))
    })
}

/// Each own command that acts on a fault row, with each of these ids.
fn own_commands(faults: &[u16]) -> Vec<Event> {
    ROW_COMMANDS
        .iter()
        .flat_map(|(_, command)| faults.iter().map(|fault| Event::Own(*command, *fault)))
        .collect()
}

fn check_of(
    watch: &mut Watch,
    name: &str,
    tables: impl Iterator<Item = (Table, Vec<Event>)>,
) -> bool {
    let (mut sizes, mut all, mut wrong, mut beyond, mut copies) = (0, 0, 0, 0, 0);
    for (table, events) in tables {
        sizes += 1;
        all += events.len();
        let (judging, by_event) = watch.measured(&table, &events);
        copies += watch.copies(&judging);
        if !judged(&table, &judging) {
            wrong += 1;
            if wrong <= SHOWN {
                println!(
                    "{} routes, {} protected, {} faults: the judge of the state does not look as defined",
                    table.ids[ROUTES].len(),
                    table.ids[PROTECTED].len(),
                    table.ids[FAULTS].len()
                );
            }
        }
        for (event, loads) in events.iter().zip(by_event) {
            copies += watch.copies(&loads);
            for (other, named) in event.named(&table).iter().enumerate() {
                let exact = of(&loads, other, true)
                    .map(|load| (load.row, load.rows))
                    .eq(named.iter().map(|row| (*row, 1)));
                if !exact {
                    wrong += 1;
                    let rows = |load: &Load| load.row..load.row + load.rows;
                    let within = of(&loads, other, true)
                        .flat_map(rows)
                        .all(|row| named.contains(&row));
                    beyond += usize::from(!within);
                    if wrong <= SHOWN {
                        tell(&table, *event, other, named, &loads);
                    }
                }
            }
        }
    }
    if wrong > 0 {
        println!(
            "NOT as defined: {name}: {sizes} tables, {all} events, {wrong} differences, {beyond} of them with a row that is not named"
        );
    }
    if copies > 0 {
        println!(
            "NOT lent: {name}: {sizes} tables, {all} events, {copies} loads for a copy or of one"
        );
    }
    if wrong == 0 && copies == 0 {
        println!("ok: {name}: {sizes} tables, each judged, and {all} events, and nothing copied");
    }
    wrong == 0 && copies == 0
}

/// Before the first event the state is judged. Of each column a walk holds every row in use against the one before it; then each
/// route and each protected id is read once more, by itself, and each place not in use once, as it must be zero. Of the routes
/// it looks besides, behind these walks, at the rows that the definition names for each protected id and for each response.
fn judged(table: &Table, loads: &[Load]) -> bool {
    let asked = table.ids[PROTECTED].iter().copied();
    let asked = asked.chain((0..table.ids[FAULTS].len()).map(|row| table.response(row)));
    let searched: Vec<u8> = asked
        .flat_map(|id| looks(&table.ids[ROUTES], 128, id))
        .collect();
    (0..3).all(|column| {
        let (n, places) = (table.ids[column].len(), COLUMNS[column].1);
        let named = if column == ROUTES { &searched[..] } else { &[] };
        let by_itself = usize::from(column != FAULTS);
        let walked = |row: usize| match row {
            _ if row >= n => 1,
            _ => by_itself + usize::from(row > 0) + usize::from(row + 1 < n),
        };
        let (used, unused): (Vec<&Load>, Vec<&Load>) =
            of(loads, column, true).partition(|load| usize::from(load.row) < n);
        let Some(walks) = used.len().checked_sub(named.len()) else {
            return false;
        };
        let (walks, looked) = used.split_at(walks);
        let mut times = vec![0; places];
        for load in walks.iter().chain(&unused) {
            (load.row..load.row + load.rows).for_each(|row| times[usize::from(row)] += 1);
        }
        let looked = looked.iter().map(|load| (load.row, load.rows));
        looked.eq(named.iter().map(|row| (*row, 1)))
            && times.into_iter().eq((0..places).map(walked))
    })
}

/// Differences shown of each table.
const SHOWN: usize = 5;

fn tell(table: &Table, event: Event, column: usize, named: &[u8], loads: &[Load]) {
    let what = match event {
        Event::Packet(id) => format!("packet {id}"),
        Event::Spoiled(id) => format!("spoiled packet {id}"),
        Event::Own(command, fault) => format!("own command {} of {fault}", command - BASE),
        Event::Fault(fault) => format!("fault {fault}"),
        Event::Tick => "tick".to_string(),
    };
    let named: Vec<Load> = named
        .iter()
        .map(|row| Load {
            row: *row,
            rows: 1,
            ..Load::default()
        })
        .collect();
    let mut pcs: Vec<u64> = of(loads, column, true).map(|load| load.pc).collect();
    pcs.sort_unstable();
    pcs.dedup();
    let pcs: Vec<String> = pcs
        .iter()
        .map(|pc| format!("{:#x}", pc.wrapping_sub(program())))
        .collect();
    println!(
        "{what}, {} {}: the definition names rows {}, the code looks at {} (by the instructions at {})",
        table.ids[column].len(), COLUMNS[column].0,
        listed(named.iter()), listed(of(loads, column, true)), pcs.join(" ")
    );
}

extern "C" {
    /// The linker's name for where the program begins.
    static __executable_start: u8;
}

/// Where the program was put: addresses less this are those of `objdump -d`.
fn program() -> u64 {
    addr_of!(__executable_start) as u64
}

/// Writes over what calls before have left below on the stack. A column that stands there still, with a variable of the measured call
/// at its last row that happens to be zero too, would be taken for a copy of the table.
#[inline(never)]
fn scrub() {
    let mut below = [0xA5u8; 128 << 10];
    black_box(&mut below);
}

fn watched(work: impl FnOnce(&mut Watch) -> bool) -> ExitCode {
    let here = 0u64;
    let Some(mut watch) = Watch::new(black_box(&here) as *const u64 as u64) else {
        eprintln!("bench: the rows are seen by a plugin of QEMU alone: run bin/rows");
        return ExitCode::from(2);
    };
    if below(&mut watch, work) {
        ExitCode::SUCCESS
    } else {
        ExitCode::FAILURE
    }
}

/// A frame of its own, so that everything stands below the place that was taken on the stack.
#[inline(never)]
fn below(watch: &mut Watch, work: impl FnOnce(&mut Watch) -> bool) -> bool {
    black_box(work(watch))
}
