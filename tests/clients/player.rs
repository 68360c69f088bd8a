//! Carries out the commands of standard input by the crate `pengtawis`, as player.c does. With the word `instance`: a service.

use pengtawis::{Body, Client, ClientError, Cursor, Endpoint, Event, Instance, Item, Items, Kind, Kinds, Value, Watch};
use std::env;
use std::io::{self, BufRead, Read, Write};
use std::os::unix::net::UnixListener;
use std::time::Duration;

fn time(text: &str) -> Option<Duration> {
    text.parse::<u64>().ok().map(Duration::from_millis)
}

fn kind(word: &str) -> Kind {
    match word {
        "label" => Kind::Label,
        "u32" => Kind::U32,
        "str" => Kind::Str,
        _ => Kind::Mem,
    }
}

fn kinds(mask: &str) -> Kinds {
    let mask: u8 = mask.parse().unwrap_or(0);
    let all = [Kind::Label, Kind::U32, Kind::Str, Kind::Mem];
    all.iter().filter(|it| mask & **it as u8 != 0).fold(Kinds::NONE, |sum, it| sum | *it)
}

fn word(kind: Kind) -> &'static str {
    match kind {
        Kind::Label => "label",
        Kind::U32 => "u32",
        Kind::Str => "str",
        Kind::Mem => "mem",
    }
}

fn hex(bytes: &[u8]) -> String {
    bytes.iter().map(|it| format!("{it:02x}")).collect()
}

fn bytes(text: &str) -> Vec<u8> {
    (0..text.len() / 2).filter_map(|at| u8::from_str_radix(&text[2 * at..2 * at + 2], 16).ok()).collect()
}

fn body(body: &Body<'_>) -> String {
    match body {
        Body::Gone => "-".to_owned(),
        Body::Label(at) => at.to_string(),
        Body::U32(number) => number.to_string(),
        Body::Str(text) => text.to_string(),
        Body::Mem(bytes) => hex(bytes),
    }
}

fn item(item: &Item<'_>) -> String {
    match item {
        Item::Floor { owner, generation } => format!("! {owner} {generation}"),
        Item::Change(it) => {
            let mark = if it.body == Body::Gone { "" } else { "= " };
            format!("{} {} {} {} {mark}{}", it.name, word(it.kind), it.owner, it.version, body(&it.body))
        }
    }
}

fn items(all: &Items) -> String {
    all.iter().map(|it| item(&it) + "|").collect()
}

fn cut(text: &str) -> (&str, &str) {
    text.split_once(' ').unwrap_or((text, ""))
}

fn endpoint(text: &str) -> Result<Endpoint, ClientError> {
    text.parse().map_err(|_| ClientError::BadCall)
}

fn published(client: &mut Client, rest: &str) -> Result<String, ClientError> {
    let ((name, rest), mem) = (cut(rest), cut(cut(rest).1).1);
    let (word, text) = cut(rest);
    let mem = bytes(mem);
    let value = match kind(word) {
        Kind::Label => Value::Label(endpoint(text)?),
        Kind::U32 => Value::U32(text.parse().map_err(|_| ClientError::BadCall)?),
        Kind::Str => Value::Str(text),
        Kind::Mem => Value::Mem(&mem),
    };
    client.publish(name, value).map(|()| "ok".to_owned())
}

fn connected(client: &mut Client, label: &str) -> Result<String, ClientError> {
    let (at, mut service) = client.connect(label)?;
    let mut said = [0; 4096];
    let length = service.write_all(b"hello").and_then(|()| service.read(&mut said)).unwrap_or(0);
    Ok(format!("{at} {}", String::from_utf8_lossy(&said[..length])))
}

fn watched(watches: &mut Vec<Watch>, rest: &str) -> Result<String, ClientError> {
    let words: Vec<&str> = rest.split(' ').collect();
    let numbers: Vec<u64> = words[2..].iter().filter_map(|it| it.parse().ok()).collect();
    let cursor = numbers.get(1).map(|position| Cursor { incarnation: numbers[0], position: *position });
    watches.push(Watch::new(words[0], kinds(words[1]), cursor));
    Ok(format!("watch {}", watches.len() - 1))
}

fn number(text: &str) -> usize {
    text.parse().unwrap_or(0)
}

fn played(client: &mut Option<Client>, watches: &mut Vec<Watch>, verb: &str, rest: &str) -> Result<String, ClientError> {
    let ok = |()| "ok".to_owned();
    if verb == "open" {
        let (path, timeout) = cut(rest);
        *client = None;
        *client = Some(Client::open(path, time(timeout))?);
        return Ok(ok(()));
    }
    let client = client.as_mut().ok_or(ClientError::BadCall)?;
    let (first, second) = cut(rest);
    match verb {
        "ask" => client.ask(rest).map(|it| it.replace('\n', "|")),
        "two" => client.ask(&format!("{rest}\nshow")),
        "retrieve" => client.retrieve(first, kind(second)).map(|it| body(&it)),
        "nameof" => client.name_of(endpoint(rest)?),
        "as" => client.act_as(endpoint(rest)?).map(ok),
        "publish" => published(client, rest),
        "delete" => client.delete(first, kind(second)).map(ok),
        "subscribe" => client.subscribe(first, kinds(second)).map(|it| format!("sub {it}")),
        "check" => client.check(number(rest) as u32).map(|it| items(&it)),
        "notice" => client.notice(time(rest)).map(|it| format!("notice {it}")),
        "watch" => watched(watches, rest),
        "next" => watches[number(first)].next(client, time(second)).map(|it| match it {
            Event::Anew => "anew".to_owned(),
            Event::Item(it) => item(&it.item()),
        }),
        "cursor" => Ok(watches[number(rest)].cursor().map_or("none".to_owned(), |it| format!("{} {}", it.incarnation, it.position))),
        "unwatch" => {
            watches[number(rest)].close(client);
            Ok(ok(()))
        }
        "connect" => connected(client, rest),
        "reconnect" => client.reconnect().map(ok),
        _ => Err(ClientError::NoRequest),
    }
}

fn play() -> io::Result<()> {
    let (mut client, mut watches) = (None, Vec::new());
    for line in io::stdin().lock().lines() {
        let line = line?;
        let (verb, rest) = cut(&line);
        let said = played(&mut client, &mut watches, verb, rest).unwrap_or_else(|fault| format!("fault {}", fault.word()));
        println!("{said}");
    }
    Ok(())
}

/// Answers the message of a client that waits, if there is one.
fn answer(me: Endpoint, listener: &UnixListener) {
    if let Ok((mut client, _)) = listener.accept() {
        let mut said = [0; 100];
        let _ = client.set_nonblocking(false);
        if let Ok(length) = client.read(&mut said) {
            let _ = client.write_all(format!("{me} {}", String::from_utf8_lossy(&said[..length])).as_bytes());
        }
    }
}

/// Publishes the last label that a watch saw.
fn look(me: &mut Instance, label: &str, watch: &mut Watch) -> Result<(), ClientError> {
    loop {
        match watch.next(me, Some(Duration::ZERO)) {
            Ok(Event::Item(it)) => {
                if let Item::Change(change) = it.item() {
                    if change.body != Body::Gone {
                        me.publish(&format!("{label}.saw"), format!("{} {}", change.name, body(&change.body)).as_str())?;
                    }
                }
            }
            Ok(Event::Anew) => {}
            Err(ClientError::Timeout) => return Ok(()),
            Err(other) => return Err(other),
        }
    }
}

fn live() -> Result<(), ClientError> {
    let mut me = Instance::open(Some(Duration::from_secs(60)))?;
    let (label, listener) = (env::var("DS_LABEL").unwrap_or_default(), me.listener()?);
    let turn = time(&env::var("TURN").unwrap_or_default()).unwrap_or(Duration::from_millis(20));
    listener.set_nonblocking(true).map_err(ClientError::Lost)?;
    me.notify("READY=1")?;
    let mut watch = env::var("DS_SUB").ok().map(|_| Watch::new("d", Kind::Label, None));
    for number in 1u32.. {
        me.publish(&format!("{label}.n"), number)?;
        if let Some(watch) = &mut watch {
            look(&mut me, &label, watch)?;
        }
        me.wait(turn)?;
        answer(me.endpoint(), &listener);
    }
    Ok(())
}

fn main() {
    let done = if env::args().nth(1).as_deref() == Some("instance") { live() } else { play().map_err(ClientError::Lost) };
    match done {
        Ok(()) | Err(ClientError::Lost(_)) => {}
        Err(fault) => {
            eprintln!("player: {fault}");
            std::process::exit(1)
        }
    }
}
