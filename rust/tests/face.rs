//! What the random model doesn't reach: texts, numbers, the greatest limits, waits that last, and
//! what is shown.

mod common;

use common::*;
use kupaldiz::*;
use std::collections::hash_map::DefaultHasher;
use std::collections::{BTreeSet, HashSet};
use std::error::Error;
use std::hash::{Hash, Hasher};
use std::mem;
use std::rc::Rc;
use std::sync::mpsc::channel;
use std::thread;
use std::time::{Duration, Instant};

const WM: Name = Name::from_static("wm");

/// Also where they differ past the eighth byte alone.
#[test]
fn names_are_told_apart_and_ordered_as_their_texts() {
    let texts = ["a", "a0", "aa", "abcdefgh", "abcdefgha", "abcdefghb", "abcdefghijklmno", "b"];
    let names = texts.map(name);
    assert!(names.windows(2).all(|pair| pair[0] < pair[1]));
    assert_eq!(names.iter().collect::<HashSet<_>>().len(), names.len());
    let ordered: Vec<&str> =
        names.iter().rev().collect::<BTreeSet<_>>().into_iter().filter_map(Name::as_str).collect();
    assert_eq!(ordered, texts);
    assert!(names.iter().zip(texts).all(|(name, text)| *name == text && *name == *text));
    assert!(WM != "wm0" && WM != *"vm" && Name::from_bytes(b"wm") == Ok(WM));
    assert_eq!(("wm".parse(), "".parse::<Name>()), (Ok(WM), Err(NameError::Empty)));
}

/// No entry has it.
#[test]
fn what_is_no_name_is_no_key() {
    let (_registry, cpus) = with_driver(7);
    let cpu = &cpus[0];
    cpu.attach("sixteen-bytes-16", 8).unwrap();
    for text in ["", "\0", "sixteen-bytes-16+"] {
        let refused = [cpu.attach(text, 9).map(drop), cpu.attach_iface("wm", text, 9).map(drop)];
        assert!(refused
            .iter()
            .all(|one| one.as_ref().unwrap_err().refusal == AttachError::BadName));
        assert_eq!(cpu.replace(text, 9).map(drop).unwrap_err().refusal, AttachError::BadName);
        let found = [
            cpu.get(text).map(drop),
            cpu.get_local(text).map(drop),
            cpu.read(text).map(drop),
            cpu.look_up(text).map(drop),
        ];
        assert_eq!(found, [Err(LookUpError::NotFound); 4]);
        assert_eq!(cpu.detach(text).map(drop), Err(DetachError::NotFound));
        assert!(!cpu.enter().unwrap().contains(text));
    }
}

#[test]
fn bad_settings_are_refused() {
    let whole = Settings::new(LIMITS.cpus as u8, LIMITS.slots as u8);
    let (changes, sections) =
        (whole.changes(LIMITS.changes + 1), whole.sections(LIMITS.sections + 1));
    for settings in [
        whole.cpus(0),
        whole.cpus(200),
        whole.slots(0),
        changes,
        sections,
        whole.passives(0),
        whole.locals(0),
    ] {
        assert_eq!(
            Registry::<()>::open(settings).map(drop).map_err(why),
            Err(RegistryError::BadSettings),
            "{settings:?}"
        );
    }
    let (registry, cpus) = opened::<()>(whole);
    assert_eq!((registry.settings(), cpus.len() as u64), (whole, LIMITS.cpus));
    let found = thread::available_parallelism().unwrap().get().min(64) as u8;
    assert_eq!(Settings::default(), Settings::new(found, 32));
    assert_eq!(kupaldiz::version(), env!("CARGO_PKG_VERSION"));
}

#[test]
fn refusals_say_why() {
    use RegistryError as R;
    let plain = [
        R::NoMemory,
        R::BadSettings,
        R::BadName,
        R::NameTaken,
        R::NoSlot,
        R::HistoryFull,
        R::NotFound,
        R::Inside,
        R::SectionsSpent,
        R::PassiveFull,
        R::LocalFull,
        R::MissingCpu,
        R::NoCpu,
        R::TooDeep,
        R::NeedsDriver,
        R::OtherRegistry,
        R::OtherLimits,
        R::StillOpen,
    ];
    let texts = plain.iter().map(R::to_string).collect::<HashSet<_>>();
    assert!(texts.len() == plain.len() && texts.iter().all(|text| text.len() > 12), "{texts:?}");
    let held = R::StillHeld(Holder::Grace(1)).to_string();
    assert_eq!(held, "the entry is still held: a section is open on CPU 1");
    assert_eq!(R::Waiting(3).to_string(), "a section is open on CPU 3");
    let shown =
        [Holder::Passive(2), Holder::Local(1), Holder::Local(3)].map(|holder| holder.to_string());
    assert_eq!(shown, ["CPU 2 has a passive reference", "1 local reference", "3 local references"]);
    let (_registry, cpus) = with_driver(7);
    // A report prints each source after it, so the text isn't a source as well.
    let boxed: Box<dyn Error> = cpus[0].attach(WM, 8).unwrap_err().into();
    assert!(boxed.to_string() == R::NameTaken.to_string() && boxed.source().is_none());
    let named = || -> Result<Name, R> { Ok(Name::try_from("")?) };
    let closed = || -> Result<(), R> { Ok(cpus[0].registry().close(Patience::Turns(1))?) };
    assert_eq!((named(), closed()), (Err(R::BadName), Err(R::StillOpen)));
}

/// Entries of two registries may have the same number, slot, kind and name.
#[test]
fn an_entry_is_of_its_registry() {
    let [(one, cpus), (other, others)] = [7, 8].map(|value| {
        let (registry, cpus) = opened_tracked(Settings::new(1, 2));
        cpus[0].attach(WM, value).unwrap();
        (registry, cpus)
    });
    let (_own, held) = (cpus[0].get(WM).unwrap(), others[0].get(WM).unwrap());
    let of_other = PassiveRef::entry(&held);
    assert!(of_other != cpus[0].look_up(WM).unwrap() && of_other == others[0].look_up(WM).unwrap());
    assert_eq!(
        cpus[0].detach_entry(&of_other).map(drop).map_err(why),
        Err(RegistryError::NotFound)
    );
    assert_eq!(
        (
            one.holders(&of_other).unwrap().places.len(),
            other.holders(&of_other).unwrap().places.len()
        ),
        (0, 1)
    );
    drop(held);
    assert_eq!(others[0].detach_entry(&of_other).unwrap().entry(), of_other);
}

/// Each would wait for the other's handle. Whoever has closed it, it is closed as both return.
#[test]
fn handles_may_be_closed_at_once() {
    for bound in [patience(), Patience::Forever] {
        let (registry, cpus) = with_driver(std::sync::Arc::new(7));
        let carried = std::sync::Arc::clone(&cpus[0].read(WM).unwrap());
        let ((to, from), (begin, begun)) = (channel(), channel());
        for registry in [registry.clone(), registry.clone(), registry] {
            let (to, begin, carried) = (to.clone(), begin.clone(), carried.clone());
            thread::spawn(move || {
                begin.send(Waiter::here()).unwrap();
                to.send((registry.close(bound).is_ok(), std::sync::Arc::strong_count(&carried)))
            });
        }
        (0..3).for_each(|_| begun.recv().unwrap().waits());
        // What another handle keeps is open.
        let shortly = cpus[0].registry().close(Patience::Turns(3)).unwrap_err().given;
        assert!(shortly == cpus[1].registry());
        drop((shortly, cpus));
        let all = [(); 3].map(|()| from.recv_timeout(LONG).expect("a close that waits for ever"));
        assert!(all.iter().all(|(is_closed, shares)| *is_closed && *shares <= 4), "{all:?}");
    }
}

/// None of what is carried is shown, so it needn't be.
#[test]
fn errors_need_no_debug_of_what_is_carried() {
    struct Silent;
    let (registry, cpus) = with_driver(Silent);
    let held = local(&cpus[0], "wm");
    let (_, old) = cpus[0].replace(WM, Silent).unwrap();
    let old = old
        .destroy_on(&cpus[0], Patience::Turns(1))
        .unwrap_err()
        .given
        .destroy(Patience::Turns(1))
        .unwrap_err();
    drop(held);
    assert_eq!(format!("{:?}", old.given.try_destroy().unwrap()).matches("Entry").count(), 1);
    assert!(format!("{:?}", registry.drain(Patience::Forever))
        .starts_with("Ok(Drained { freed: [Freed { entry:"));
    drop(cpus[0].attach(WM, Silent).map(|_| cpus[0].attach(WM, Silent).unwrap_err()));
}

/// So are calls that enter; and all of them are left at once.
#[test]
fn sections_nest_to_the_greatest_depth() {
    let (_registry, mut cpus) = with_driver(7);
    let (deepest, cpu) = (LIMITS.depth as u8, &cpus[0]);
    let mut guards: Vec<_> = (0..deepest).map(|_| cpu.enter().unwrap()).collect();
    let found = guards[guards.len() - 1].find(WM).unwrap();
    let deeper = [cpu.enter().map(drop).map_err(why), cpu.read(WM).map(drop).map_err(why)];
    assert_eq!(deeper, [Err(RegistryError::TooDeep); 2]);
    // These don't nest.
    assert!(cpu.get(WM).is_ok() && cpu.look_up(WM).is_ok() && cpu.get_local(WM).is_ok());
    assert_eq!((*Found::acquire(&found).unwrap(), cpu.depth()), (7, deepest));
    guards.pop();
    assert_eq!((*cpu.read(WM).unwrap(), cpu.depth()), (7, deepest));
    drop(guards);
    (0..deepest).for_each(|_| mem::forget(cpus[0].enter().unwrap()));
    assert_eq!(cpus[0].depth(), deepest);
    cpus[0].leave();
    assert!(!cpus[0].is_inside());
}

/// By each call that counts: a lookup by one call begins a section, if its CPU doesn't remember the
/// entry. A local reference that was dropped is released before a call fails.
#[test]
fn each_limit_is_told() {
    let with = |settings: Settings| {
        let (registry, mut cpus) = opened(settings);
        assert_eq!(registry.attach(WM, 7).map(|entry| entry.number), Ok(1));
        (registry, cpus.remove(0))
    };
    let (_registry, cpu) = with(Settings::new(1, 4).sections(1));
    drop(cpu.enter().unwrap());
    let spent = [
        cpu.enter().map(drop),
        cpu.read(WM).map(drop),
        cpu.look_up(WM).map(drop),
        cpu.get(WM).map(drop),
        cpu.get_local(WM).map(drop),
    ];
    assert_eq!(spent, [Err(LookUpError::SectionsSpent); 5]);
    let spent = cpu.attach_iface(WM, "wm0", 8).unwrap_err();
    assert_eq!((spent.refusal, spent.given), (AttachError::SectionsSpent, 8));

    let (_registry, cpu) = with(Settings::new(1, 4).passives(1).locals(1));
    let (guard, one) = (cpu.read(WM).unwrap(), cpu.get(WM).unwrap());
    let full = [ReadGuard::acquire(&guard), PassiveRef::try_clone(&one), cpu.get(WM)];
    assert_eq!(full.map(|full| full.map(drop)), [Err(LookUpError::PassiveFull); 3]);
    let held = local(&cpu, "wm");
    let full = [ReadGuard::acquire_local(&guard), cpu.get_local(WM)];
    assert_eq!(full.map(|full| full.map(drop)), [Err(LookUpError::LocalFull); 2]);
    ReadGuard::exit(guard);
    assert_eq!(cpu.attach_iface(WM, "wm0", 8).unwrap_err().refusal, AttachError::LocalFull);
    drop(held);
    assert!(cpu.get_local(WM).is_ok() && cpu.attach_iface(WM, "wm0", 8).is_ok());

    let (registry, cpu) = with(Settings::new(1, 4).changes(3));
    let full = [cpu.attach("vga", 8).map(drop), cpu.replace(WM, 8).map(drop)];
    assert!(full.iter().all(|full| full.as_ref().unwrap_err().refusal == AttachError::HistoryFull));
    assert_eq!(registry.retire(WM).map(|freed| freed.len()), Ok(1));
}

#[test]
fn with_all_cpus_taken_none_is_left_to_choose() {
    let (registry, cpus) = opened(Settings::new(LIMITS.cpus as u8, 2));
    assert_eq!(registry.get(WM).map(drop), Err(LookUpError::NoCpu));
    let refused = registry.attach(WM, 8).unwrap_err();
    assert_eq!((refused.refusal, refused.given), (AttachError::NoCpu, 8));
    assert_eq!(registry.detach(WM).map(drop), Err(DetachError::NoCpu));
    assert_eq!(registry.drain(Patience::Forever).map(drop).unwrap_err(), DetachError::NoCpu);
    assert_eq!(registry.audit(&cpus).map(|all| all.len()), Ok(0));
    drop(cpus);
    assert!(registry.attach(WM, 8).is_ok() && registry.get(WM).is_ok());
}

#[test]
fn a_dropped_cpu_may_be_had_again() {
    let (registry, mut cpus) = with_driver(7);
    assert!(
        registry.cpu(1).is_none()
            && registry.cpu(2).is_none()
            && registry.cpu(255).is_none()
            && registry.any_cpu().is_none()
    );
    // The registry's own is left to choose, which nobody has.
    assert_eq!(*registry.get(WM).unwrap(), 7);
    mem::forget(passive(&cpus[1], "wm"));
    drop((local(&cpus[1], "wm"), local(&cpus[1], "wm")));
    assert_eq!(registry.dropped(), 2);
    drop(cpus.remove(1));
    assert_eq!(
        (registry.dropped(), registry.audit(&cpus).map_err(why)),
        (0, Err(RegistryError::MissingCpu))
    );
    let again = registry.any_cpu().unwrap();
    assert!(again.id() == 1 && again.holds(1) && registry.cpu(1).is_none());
    // A reference may outlive all CPUs.
    let reference = local(&again, "wm");
    drop((cpus, again));
    assert_eq!((*reference, registry.any_cpu().unwrap().id()), (7, 0));
    // Whichever the crate has chosen, it may be taken out.
    assert_eq!((*registry.get(WM).unwrap(), registry.cpus().len()), (7, 2));
}

/// Each once, in any order, and of one registry.
#[test]
fn an_audit_takes_all_cpus() {
    let ((registry, mut cpus), (other, mut others)) = (with_driver(7), with_driver(8));
    let audited = registry.audit([&cpus[1], &cpus[0]]).unwrap();
    assert_eq!((audited.len(), audited[0].held), (1, 0));
    for wrong in [&[][..], &[0], &[0, 0], &[0, 1, 0]] {
        let missing = registry.audit(wrong.iter().map(|place| &cpus[*place]));
        assert_eq!(missing.map_err(why), Err(RegistryError::MissingCpu));
    }
    mem::swap(&mut cpus[1], &mut others[1]);
    assert_eq!(registry.audit(&cpus).map(drop).map_err(why), Err(RegistryError::OtherRegistry));
    assert_eq!(other.audit(&others).map(drop).map_err(why), Err(RegistryError::OtherRegistry));
    cpus.append(&mut others);
    assert_eq!(CpuPool::new(cpus).map(drop).map_err(why), Err(RegistryError::OtherRegistry));
    assert!(registry.cpu(0).is_some() && other.cpu(1).is_some());
    assert_eq!(
        CpuPool::<u8>::new(Vec::new()).map(drop).map_err(why),
        Err(RegistryError::MissingCpu)
    );
}

#[test]
fn handles_of_one_registry_are_equal() {
    let ((registry, cpus), (other, _)) = (with_driver(7), with_driver(7));
    let hash_of = |registry: &Registry<i32>| {
        let mut hasher = DefaultHasher::new();
        registry.hash(&mut hasher);
        hasher.finish()
    };
    assert!(registry != other && registry == registry.clone() && registry == cpus[0].registry());
    assert!(
        hash_of(&registry) == hash_of(&cpus[0].registry()) && hash_of(&registry) != hash_of(&other)
    );
}

/// With a CPU or without one. A bound that has passed allows one try.
#[test]
fn a_wait_lasts_as_long_as_it_is_told() {
    let (_registry, cpus) = with_driver(7);
    let (writer, shortly, section) = (&cpus[0], Duration::from_millis(5), cpus[1].enter().unwrap());
    let retired = writer.detach(WM).unwrap();
    let refused = retired.destroy_on(writer, Patience::Until(Instant::now())).unwrap_err();
    assert_eq!(why(refused.refusal), RegistryError::StillHeld(Holder::Grace(1)));
    let began = Instant::now();
    let refused = refused.given.destroy_on(writer, Patience::from(shortly)).unwrap_err();
    assert!(began.elapsed() >= shortly);
    let refused = refused.given.destroy(Patience::from(shortly)).unwrap_err();
    assert!(began.elapsed() >= 2 * shortly);
    let performed = writer.synchronize(Patience::from(shortly)).map_err(why);
    assert!(performed == Err(RegistryError::Waiting(1)) && began.elapsed() >= 3 * shortly);
    section.exit();
    let freed = refused.given.destroy_on(writer, Patience::Until(Instant::now())).unwrap();
    assert_eq!(
        (freed.to_string(), freed.entry.name, freed.value),
        ("freed slot 0".to_string(), WM, 7)
    );
}

type Wait = fn(&Registry<u8>, &Cpu<u8>, Retired<u8>) -> Option<Freed<u8>>;

#[test]
fn a_wait_ends_once_the_reader_has_left() {
    let ways: [Wait; 3] = [
        |_, cpu, retired| retired.destroy_on(cpu, patience()).ok(),
        |_, _, retired| retired.destroy(patience()).ok(),
        |_registry, cpu, retired| {
            cpu.synchronize(patience()).ok().and_then(|()| retired.try_destroy().ok())
        },
    ];
    for wait in ways {
        let (registry, mut cpus) = with_driver(7);
        let (reader, (inside, is_inside), (begin, detached)) =
            (cpus.remove(1), channel(), channel::<()>());
        let waiter = Waiter::here();
        let reading = thread::spawn(move || {
            let guard = reader.read(WM).unwrap();
            inside.send(()).unwrap();
            let _ = detached.recv();
            waiter.waits();
            *guard
        });
        is_inside.recv().unwrap();
        let retired = cpus[0].detach(WM).unwrap();
        drop(begin);
        assert_eq!(
            (wait(&registry, &cpus[0], retired).unwrap().value, reading.join().unwrap()),
            (7, 7)
        );
    }
}

/// Nobody can release that meanwhile, so no patience helps. It is said first. A local reference may
/// be released elsewhere, so the call waits.
#[test]
fn a_destroy_fails_at_once_where_its_own_cpu_holds_the_entry() {
    let began = Instant::now();
    let (_registry, mut cpus) = with_driver(7);
    let cpu = Rc::new(cpus.remove(0));
    let (borrowed, owned, held) = (passive(&cpu, "wm"), cpu.get_rc(WM).unwrap(), local(&cpu, "wm"));
    let retired = cpu.detach(WM).unwrap();
    let refused = |retired: Retired<i32>, patience| {
        let refused = retired.destroy_on(&cpu, patience).unwrap_err();
        (refused.given, why(refused.refusal))
    };
    let section = cpus[0].enter().unwrap();
    let (retired, one) = refused(retired, Patience::Forever);
    drop(borrowed);
    let (retired, two) = refused(retired, Patience::from(LONG));
    drop((owned, section));
    assert_eq!([one, two], [RegistryError::StillHeld(Holder::Passive(0)); 2]);
    assert!(began.elapsed() < LONG);
    let (began, shortly) = (Instant::now(), Duration::from_millis(5));
    let (retired, three) = refused(retired, Patience::from(shortly));
    assert!(three == RegistryError::StillHeld(Holder::Local(1)) && began.elapsed() >= shortly);
    drop(held);
    assert_eq!(retired.destroy_on(&cpu, patience()).unwrap().value, 7);
}

/// Each kind in the order of its lines, until it ends.
#[test]
fn each_line_that_holds_an_entry_is_named() {
    let (registry, mut cpus) = opened_tracked(Settings::new(2, 4));
    let cpu = Rc::new(cpus.remove(0));
    let made = cpu.attach(WM, 7).unwrap();
    let lines = || {
        let places = registry.holders(&made).unwrap().places;
        assert!(places.iter().all(|place| place.location.file() == file!()
            && place.thread.as_deref() == thread::current().name()));
        places.iter().map(|place| (place.hold, place.location.line())).collect::<Vec<_>>()
    };
    let first = line!();
    let section = cpu.enter().unwrap();
    let found = section.find(WM).unwrap();
    let one = Found::acquire(&found).unwrap();
    let two = Found::acquire_local(&found).unwrap();
    let three = cpu.get(WM).unwrap();
    let four = PassiveRef::try_clone(&three).unwrap();
    let five = cpu.get_local(WM).unwrap();
    let six = five.clone();
    section.exit();
    let seven = cpu.read(WM).unwrap();
    let eight = ReadGuard::acquire(&seven).unwrap();
    let nine = ReadGuard::acquire_local(&seven).unwrap();
    let ten = cpu.get_rc(WM).unwrap();
    let eleven = PassiveRc::try_clone(&ten).unwrap();
    let at = |hold| move |line| (hold, first + line);
    let all = [
        [10].map(at(Hold::Section)).to_vec(),
        [3, 5, 6, 11, 13, 14].map(at(Hold::Passive)).to_vec(),
        [4, 7, 8, 12].map(at(Hold::Local)).to_vec(),
    ];
    assert_eq!(lines(), all.concat());
    drop((one, two, four, five, seven, eleven));
    LocalRef::release(six, &cpu);
    assert_eq!(
        lines(),
        [[5, 11, 13].map(at(Hold::Passive)).to_vec(), vec![at(Hold::Local)(12)]].concat()
    );
    drop((three, eight, ten));
    let retired = cpu.detach(WM).unwrap();
    let refused = retired.destroy_on(&cpu, Patience::Turns(1)).unwrap_err();
    let expected = format!(
        "the entry is still held: 1 local reference: {}:{} (thread {:?})",
        file!(),
        first + 12,
        thread::current().name().unwrap()
    );
    assert_eq!(refused.to_string(), expected);
    // A reference that has gone to another thread says so there.
    let worker = thread::Builder::new().name("rx-1".to_string());
    let moved = move || {
        LocalRef::note_here(&nine);
        (nine, line!() - 1)
    };
    let (nine, line) = worker.spawn(moved).unwrap().join().unwrap();
    let expected = format!("1 local reference: {}:{line} (thread \"rx-1\")", file!());
    assert_eq!(registry.holders(&made).unwrap().to_string(), expected);
    drop(nine);
    let freed = refused.given.destroy_on(&cpu, patience()).unwrap();
    assert_eq!(registry.holders(&freed.entry).unwrap().to_string(), "nobody");
}

struct Port {
    mtu: u32,
    text: String,
}

/// Also one that was mapped: what it was made of comes back. References keep the CPU that they
/// share.
#[test]
fn a_part_is_held_by_what_it_was_made_of() {
    let (text, mtu) = ("port 1500".to_string(), 1500);
    let (registry, mut cpus) = with_driver(Port { mtu, text });
    let cpu = Rc::new(cpus.remove(0));
    let read = ReadGuard::map(cpu.read(WM).unwrap(), |port| port.text.as_str());
    let passive = PassiveRef::map(passive(&cpu, "wm"), |port| &port.mtu);
    let plain = LocalRef::map(local(&cpu, "wm"), |port| &port.text[5..]);
    let mut gone = detach(&cpus[0], "wm");
    assert_eq!(
        (format!("{read} {passive}"), format!("{plain:?}")),
        ("port 1500 1500".to_string(), "Mapped(\"1500\")".to_string())
    );
    drop(read);
    assert_eq!(gone.holder(), Some(Holder::Passive(0)));
    let passive = Mapped::into_inner(passive);
    assert_eq!((passive.mtu, PassiveRef::entry(&passive).name), (1500, WM));
    drop(passive);
    assert_eq!(gone.holder(), Some(Holder::Local(1)));
    // A part of a local reference goes where the reference may.
    thread::spawn(move || assert_eq!(&*plain, "1500")).join().unwrap();
    assert_eq!(gone.freed().value.mtu, 1500);
    cpus[0].attach(WM, Port { mtu: 9000, text: String::new() }).unwrap();
    let owned = PassiveRc::map(cpu.get_rc(WM).unwrap(), |port| &port.mtu);
    drop(cpu);
    assert!(registry.cpu(0).is_none() && *owned == 9000);
    drop(owned);
    assert!(registry.cpu(0).is_some());
}

/// Has a method with the name of each function of the guards and the references.
struct Shadow;

macro_rules! shadows {
    ($($name:ident)*) => {
        #[allow(clippy::wrong_self_convention)]
        impl Shadow {
            $(fn $name(&self) -> &'static str {
                stringify!($name)
            })*
        }

        macro_rules! are_its_own {
            ($held:expr) => {
                assert_eq!([$($held.$name()),*], [$(stringify!($name)),*])
            };
        }
    };
}

shadows!(acquire acquire_local cpu entry exit handle into_inner is_of map note_here
    reference release section try_clone value);

#[test]
fn no_function_hides_a_method_of_what_is_carried() {
    let (_registry, mut cpus) = with_driver(Shadow);
    let cpu = Rc::new(cpus.remove(0));
    let section = cpu.enter().unwrap();
    are_its_own!(section.find(WM).unwrap());
    are_its_own!(section.entries().next().unwrap());
    are_its_own!(cpu.read(WM).unwrap());
    are_its_own!(passive(&cpu, "wm"));
    are_its_own!(cpu.get_rc(WM).unwrap());
    are_its_own!(local(&cpu, "wm"));
    are_its_own!(LocalRef::map(local(&cpu, "wm"), |shadow| shadow));
}

#[test]
fn guards_show_what_they_hold() {
    let (_registry, mut cpus) = with_driver("gigabit");
    let cpu = Rc::new(cpus.remove(0));
    let (section, guard) = (cpu.enter().unwrap(), cpu.read(WM).unwrap());
    let found = section.find(WM).unwrap();
    let (passive, local, owned) = (passive(&cpu, "wm"), local(&cpu, "wm"), cpu.get_rc(WM).unwrap());
    let entry = format!("{:?}", Found::entry(&found));
    let shown = [
        (format!("{found:?}"), "Found { entry: _, value: \"gigabit\" }"),
        (format!("{guard:?}"), "ReadGuard { entry: _, value: \"gigabit\" }"),
        (format!("{local:?}"), "LocalRef { entry: _, value: \"gigabit\" }"),
        (format!("{passive:?}"), "Passive { cpu: 0, entry: _, value: \"gigabit\" }"),
        (format!("{owned:?}"), "Passive { cpu: 0, entry: _, value: \"gigabit\" }"),
        (format!("{:?}", section.entries()), "[_]"),
    ];
    for (told, expected) in shown {
        assert_eq!(told, expected.replace('_', &entry));
    }
    assert_eq!(format!("{found} {guard} {local} {passive} {owned}"), ["gigabit"; 5].join(" "));
    assert!(entry.contains("Name(wm)"));
    let iface = cpus[0].attach_iface("wm", "wm0", "port").unwrap();
    assert_eq!(iface.to_string(), "iface wm0 2 slot 1");
}
