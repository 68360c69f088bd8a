//! What a store and a map answer, by each call.

use pengtawis::{
    Body, Cursor, Done, Endpoint, Error, Item, Items, Kind, Kinds, Map, Merged, NoEndpoint, Owed, Refusal, Scope, Stopped, Store, Value,
    Version, RS,
};

const ETH: Endpoint = Endpoint::new(3, 16);

fn version(epoch: u32, seq: u32) -> Version {
    Version::new(epoch, seq)
}

/// A store that knows the driver eth0 at 3/16.
fn with_eth() -> Store {
    let mut store = Store::open(1).unwrap();
    assert!(store.publish(RS, "eth0", ETH, version(3, 0), false).unwrap().changed);
    store
}

fn lines(text: &str) -> Items {
    Items::from(text.as_bytes().to_vec())
}

fn shown(items: &Items) -> &str {
    std::str::from_utf8(items.text()).unwrap()
}

#[test]
fn values_of_each_kind() {
    let mut store = with_eth();
    let quoted = r#"say "\""#;
    for (name, value) in [("n", Value::U32(u32::MAX)), ("s", quoted.into()), ("e", "".into()), ("m", Value::Mem(&[0, 255])), ("z", Value::Mem(&[]))] {
        assert!(store.publish(ETH, name, value, version(3, 1), false).unwrap().changed, "{name}");
        assert!(!store.publish(ETH, name, value, version(3, 1), false).unwrap().changed, "{name}");
    }
    assert_eq!(store.retrieve::<Endpoint>("eth0"), Ok(ETH));
    assert_eq!(store.retrieve::<u32>("n"), Ok(u32::MAX));
    assert_eq!(store.retrieve::<String>("s").as_deref(), Ok(quoted));
    assert_eq!(store.retrieve::<String>("e").as_deref(), Ok(""));
    assert_eq!(store.retrieve::<Vec<u8>>("m"), Ok(vec![0, 255]));
    assert_eq!(store.retrieve::<Vec<u8>>("z"), Ok(vec![]));
    assert_eq!(store.name_of(ETH).as_deref(), Ok("eth0"));
    let items = store.snapshot(None).unwrap().items().unwrap();
    let bodies: Vec<_> = items.iter().map(|it| match it { Item::Change(it) => (it.name, it.body), other => panic!("{other:?}") }).collect();
    let wanted = [
        ("e", Body::Str("".into())), ("eth0", Body::Label(ETH)), ("m", Body::Mem(vec![0, 255])), ("n", Body::U32(u32::MAX)),
        ("s", Body::Str(quoted.into())), ("z", Body::Mem(vec![])),
    ];
    assert_eq!(bodies, wanted);
    let mut names = vec![];
    for item in &items {
        if let Item::Change(it) = item {
            names.push(it.name);
        }
    }
    assert_eq!(names, wanted.iter().map(|it| it.0).collect::<Vec<_>>());
}

#[test]
fn versions_and_values_in_other_forms() {
    let (mut store, text, bytes) = (with_eth(), String::from("plain"), vec![1, 2]);
    assert!(store.publish(ETH, "s", &text, (3, 1), false).unwrap().changed);
    assert!(store.publish(ETH, "m", &bytes, (3, 2), false).unwrap().changed);
    assert_eq!((store.retrieve::<String>("s"), store.retrieve::<Vec<u8>>("m")), (Ok(text), Ok(bytes)));
    assert!(store.delete(ETH, "s", Kind::Str, (3, 3)).unwrap().changed);
    assert_eq!(Version::from((3, 1)), version(3, 1));
}

#[test]
fn endpoints_from_text() {
    for (text, wanted) in [("0/2", RS), ("3/16", ETH), ("2097151/1023", Endpoint::new(2_097_151, 1023))] {
        assert_eq!(text.parse(), Ok(wanted));
        assert_eq!(wanted.to_string(), text);
    }
    for text in ["", "3", "3/", "/3", "3/16/1", "03/16", "+3/16", "3/1024", "2097152/1", "-3/16", "3/ 16", "3/16\n", "3/99999"] {
        assert_eq!(text.parse::<Endpoint>(), Err(NoEndpoint), "{text}");
    }
    assert_eq!(NoEndpoint.to_string(), "an endpoint is GENERATION/SLOT, at most 2097151/1023");
}

#[test]
fn items_by_value() {
    let mut store = with_eth();
    store.publish(ETH, "mtu", 1500, (3, 1), false).unwrap();
    store.sweep(RS, "eth0", 2).unwrap();
    let items = store.snapshot(None).unwrap().items().unwrap();
    let owned: Vec<_> = items.clone().into_iter().collect();
    assert_eq!(owned.iter().map(|it| it.item()).collect::<Vec<_>>(), items.iter().collect::<Vec<_>>());
    assert_eq!(owned.iter().map(|it| format!("{}\n", it.line())).collect::<String>(), shown(&items));
    assert_eq!(owned.len(), 3);
    let spoiled = Items::from(b"no item\n\n! tty 1\n\xff\nmtu u32 tty 1.0 = 1".to_vec());
    assert_eq!(spoiled.into_iter().map(|it| it.line().to_owned()).collect::<Vec<_>>(), ["! tty 1", "mtu u32 tty 1.0 = 1"]);
}

#[test]
fn the_longest_values_and_names() {
    let (mut store, name, text, bytes) = (with_eth(), "n".repeat(64), "\\".repeat(256), [0x5a; 1024]);
    let at = Endpoint::new(4, 17);
    store.publish(RS, &name, at, version(4, 0), false).unwrap();
    store.publish(at, &name, text.as_str(), version(4, 0), false).unwrap();
    store.publish(at, &name, &bytes, version(4, 0), false).unwrap();
    assert_eq!(store.name_of(at), Ok(name.clone()));
    assert_eq!(store.retrieve::<String>(&name), Ok(text));
    assert_eq!(store.retrieve::<Vec<u8>>(&name), Ok(bytes.to_vec()));
}

#[test]
fn an_entry_ends() {
    let mut store = with_eth();
    store.publish(ETH, "mtu", 1500, version(3, 0), false).unwrap();
    store.publish(ETH, "mtu", 9000, version(3, 1), true).unwrap();
    assert_eq!(store.delete(ETH, "mtu", Kind::U32, version(3, 2)), Ok(Done { changed: true, owed: Owed::default() }));
    assert_eq!(store.retrieve::<u32>("mtu"), Err(Error::Refused(Refusal::NotFound)));
    store.publish(ETH, "mtu", 1492, version(3, 3), false).unwrap();
    assert_eq!(store.sweep(RS, "eth0", 3).unwrap().dropped, 1);
    assert_eq!(store.retrieve::<u32>("mtu"), Err(Error::Refused(Refusal::NotFound)));
}

#[test]
fn a_subscription() {
    let mut store = with_eth();
    let told = store.subscribe(40, Scope::new("eth.*", Kind::Label | Kind::U32), true, false).unwrap();
    assert_eq!((told.stamp, told.owed.iter().collect::<Vec<_>>()), (1, vec![40]));
    let owed = store.publish(ETH, "eth0.mtu", 1500, version(3, 1), false).unwrap().owed;
    assert!(owed.contains(40) && !owed.contains(41) && !owed.contains(u32::MAX) && !owed.is_empty());
    assert_eq!((format!("{owed:?}"), format!("{:?}", Owed::default())), ("{40}".into(), "{}".into()));
    let mut check = store.check(40, 1).unwrap();
    assert_eq!((check.count(), shown(&check.items().unwrap())), (1, "eth0 label rs 3.0 = 3/16\n"));
    assert_eq!(shown(&store.check(40, 256).unwrap().items().unwrap()), "eth0.mtu u32 eth0 3.1 = 1500\n");
    assert!(store.check(40, 256).unwrap().items().unwrap().is_empty());
}

#[test]
fn a_journal_and_pages() {
    let mut store = with_eth();
    for at in 0..600 {
        store.publish(ETH, &format!("mtu{at:03}"), at, version(3, at), false).unwrap();
    }
    let mut all = store.snapshot(None).unwrap();
    let (cursor, items) = (all.cursor().unwrap(), all.items().unwrap());
    assert_eq!((cursor, items.len()), (Cursor { incarnation: 1, position: 601 }, 601));
    let (mut paged, mut after) = (Vec::new(), None::<String>);
    for at in 0.. {
        assert!(at < 3, "there are more pages than three");
        let mut page = store.page(after.as_deref().map(|it| (it, Kind::U32)), Some(Scope::new(".*", Kind::U32)), 256).unwrap();
        page.append_to(&mut paged).unwrap();
        if page.is_last() {
            break;
        }
        let last = paged[..paged.len() - 1].rsplit(|it| *it == b'\n').next().unwrap();
        after = std::str::from_utf8(last).unwrap().split(' ').next().map(str::to_string);
    }
    assert_eq!(paged, shown(&items).lines().filter(|it| it.contains(" u32 ")).map(|it| format!("{it}\n")).collect::<String>().into_bytes());
    let (mut cursor, mut counts) = (Cursor { incarnation: 1, position: 601 - 256 }, vec![]);
    while counts.len() < 3 {
        let mut since = store.since(cursor, None, 100).unwrap();
        counts.push(since.items().unwrap().len());
        cursor = since.cursor().unwrap();
    }
    assert_eq!((counts, cursor.position), (vec![100, 100, 56], 601));
}

/// The stamps of a check aren't a cursor.
#[test]
fn which_answers_have_a_cursor() {
    let mut store = with_eth();
    store.subscribe(40, Scope::new("eth.*", Kinds::ALL), true, false).unwrap();
    let (first, end) = (Cursor { incarnation: 1, position: 0 }, Some(Cursor { incarnation: 1, position: 1 }));
    assert_eq!(store.since(first, None, 256).unwrap().cursor(), end);
    assert_eq!(store.snapshot(None).unwrap().cursor(), end);
    assert_eq!(store.page(None, None, 256).unwrap().cursor(), end);
    assert_eq!(store.check(40, 256).unwrap().cursor(), None);
    assert_eq!(format!("{:?}", store.check(40, 256).unwrap()), "Shown { count: 0, cursor: None, .. }");
    let lines = [("since * 1 0 256", end), ("snapshot *", end), ("page * - 256", end), ("check 40 256", None), ("all", None)];
    for (line, cursor) in lines {
        assert_eq!(store.line(line).unwrap().cursor(), cursor, "{line}");
    }
}

/// 200 values of 1024 bytes, whose lines have 400 KB: a call fetches 64 KB of them.
#[test]
fn more_than_one_room() {
    let mut store = with_eth();
    for at in 0..200u8 {
        store.publish(ETH, &format!("m{at:03}"), &[at; 1024], version(3, 0), false).unwrap();
    }
    let items = store.snapshot(Some(Scope::new("m.*", Kind::Mem))).unwrap().items().unwrap();
    let wanted: String = (0..200u8).map(|at| format!("m{at:03} mem eth0 3.0 = {}\n", format!("{at:02x}").repeat(1024))).collect();
    assert!(shown(&items) == wanted && items.len() == 200, "{} bytes", items.text().len());
}

#[test]
fn replicas_and_maps() {
    let (mut one, mut two) = (with_eth(), Store::open(2).unwrap());
    for at in 0..300 {
        one.publish(ETH, &format!("mtu{at}"), at, version(3, at), false).unwrap();
    }
    let items = one.snapshot(None).unwrap().items().unwrap();
    assert_eq!(two.merge(&items), Ok(Merged { done: 301, taken: 301, stale: 0, owed: Owed::default() }));
    assert_eq!(two.merge(&items), Ok(Merged { done: 301, taken: 0, stale: 0, owed: Owed::default() }));
    assert_eq!(two.snapshot(None).unwrap().items(), Ok(items.clone()));
    let mut map = Map::new("eth.*", Kind::Label).unwrap();
    assert_eq!(map.label("eth0"), Err(Error::Refused(Refusal::NotFound)));
    assert_eq!(map.take(&items).map(|it| (it.done, it.taken)), Ok((301, 1)));
    assert_eq!(map.label("eth0"), Ok(ETH));
    map.take(&lines("eth0 label rs 2.0 = 2/9\n")).unwrap();
    assert_eq!(map.label("eth0"), Ok(ETH));
}

#[test]
fn the_entries_of_a_map() {
    let mut map = Map::new("a.*", Kinds::ALL).unwrap();
    let text = "a.m mem a 3.2 = 00ff\na u32 a 3.0 = 7\na label rs 3.0 = 3/16\na.s str a 3.1 = \"x \\\"y\\\"\"\na.z u32 a 3.3 -\nb u32 a 3.4 = 1\n";
    assert_eq!(map.take(&lines(text)).map(|it| (it.done, it.taken)), Ok((6, 5)));
    assert_eq!((map.get("a"), map.get("a"), map.get("a.s")), (Ok(ETH), Ok(7), Ok(String::from("x \"y\""))));
    assert_eq!(map.get("a.m"), Ok(vec![0u8, 255]));
    for name in ["a.z", "b", "c"] {
        assert_eq!(map.get::<u32>(name), Err(Error::Refused(Refusal::NotFound)));
    }
    assert_eq!(map.get::<u32>("a b"), Err(Error::NoRequest));
    let held: Vec<_> = map.iter().map(|it| (it.name, it.body)).collect();
    let wanted = [("a", Body::Label(ETH)), ("a", Body::U32(7)), ("a.m", Body::Mem(vec![0, 255])), ("a.s", Body::Str("x \"y\"".into()))];
    assert_eq!(held, wanted.map(|it| (String::from(it.0), it.1)));
    map.take(&lines("! a 3\n")).unwrap();
    assert_eq!(map.iter().map(|it| it.name).collect::<Vec<_>>(), ["a"]);
}

#[test]
fn a_merge_stops_where_an_item_is_refused() {
    let mut store = with_eth();
    store.subscribe(7, Scope::new("a.*", Kinds::ALL), false, false).unwrap();
    let many: String = (0..300).map(|at| format!("a{at} u32 eth0 3.{at} = 1\n")).collect();
    let told = store.merge(&lines(&format!("{many}eth0 label rs 3.0 = 3/17\nb u32 eth0 3.0 = 1\n")));
    match told {
        Err(Error::Stopped(Stopped { refusal, done: 300, owed })) => {
            assert_eq!((refusal, owed.contains(7)), (Refusal::Clash(version(3, 0)), true));
        }
        other => panic!("{other:?}"),
    }
    assert_eq!(store.retrieve::<u32>("b"), Err(Error::Refused(Refusal::NotFound)));
    assert_eq!(store.merge(&lines("no item\n")), Err(Error::NoRequest));
}

#[test]
fn a_malformed_line_of_a_merge() {
    let mut store = with_eth();
    store.subscribe(7, Scope::new("a.*", Kinds::ALL), false, false).unwrap();
    let held = |store: &mut Store| store.snapshot(Some(Scope::new("a.*", Kinds::ALL))).unwrap().count();
    let many = |count| (0..count).map(|at| format!("a{at} u32 eth0 3.{at} = 1\n")).collect::<String>();
    assert_eq!(store.merge(&lines(&format!("{}no item\n", many(255)))), Err(Error::NoRequest));
    assert_eq!(held(&mut store), 0);
    let told = store.merge(&lines(&format!("{}no item\n", many(600)))).unwrap_err();
    match told {
        Error::BadItems { done: 512, owed } => assert_eq!(owed.iter().collect::<Vec<_>>(), [7]),
        other => panic!("{other:?}"),
    }
    assert_eq!((held(&mut store), told.refusal()), (512, None));
    assert_eq!(told.to_string(), "a line of items is malformed; the first 512 items are done");
}

#[test]
fn lines_of_scripts() {
    let mut store = Store::open(1).unwrap();
    assert_eq!(store.line("publish 0/2 new eth0 label 3.0 = 3/16").unwrap().text().as_deref(), Ok("taken\n"));
    assert_eq!(store.line("retrieve eth0 label\n").unwrap().text().as_deref(), Ok("found 3/16\n"));
    assert_eq!(store.line("retrieve eth1 label").err(), Some(Error::Refused(Refusal::NotFound)));
    assert_eq!(store.line("retreive eth0 label").err(), Some(Error::BadLine(0)));
    assert_eq!(store.line("side a").err(), Some(Error::NoRequest));
    let many: String = (0..400).map(|at| format!("s{at:03} str eth0 3.0 = \"{}\"\n", "x".repeat(250))).collect();
    store.merge(&lines(&many)).unwrap();
    let text = store.line("snapshot \"s.*\" 15").unwrap().text().unwrap();
    assert_eq!(text, format!("{many}snapshot 400 1 401\n"));
    store.subscribe(40, Scope::new("mtu", Kinds::ALL), false, false).unwrap();
    assert!(store.line("publish 3/16 new mtu u32 3.1 = 1500").unwrap().owed().contains(40));
    assert_eq!(store.line("nameof 3/16").unwrap().owed(), Owed::default());
}
