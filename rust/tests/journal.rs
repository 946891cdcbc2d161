//! The journal of a service, read while the service goes on.

use ipcsh::{Client, Creds, GetFlags, Limits, Service};
use std::io::{self, Read};

const EINVAL: i32 = 22;

fn users() -> [Creds; 2] {
    [Creds::new(100, 10), Creds::new(101, 11)]
}

fn text_of(client: &mut Client) -> io::Result<String> {
    let mut text = String::new();
    client.journal().read_to_string(&mut text)?;
    Ok(text)
}

#[test]
fn the_first_client_reads_each_row_once() {
    let mut clients = Service::open_with_journal(&Limits::default(), &users()).unwrap();
    assert_eq!(
        text_of(&mut clients[0]).unwrap().lines().next(),
        Some("ipcsh journal 1")
    );
    clients[1]
        .msgget(5, GetFlags::CREAT | GetFlags::mode(0o600))
        .unwrap();
    let refused = clients[0].msgget(5, GetFlags::mode(0o400)).unwrap_err();
    assert_eq!(refused.errno(), 13);
    let rows = "at 0 client 1: msgget 0x5 01600\n  1.0 client 1: granted\n\
                at 0 client 0: msgget 0x5 0400\n  2.0 client 0: error 13 EACCES other-bits\n";
    assert_eq!(text_of(&mut clients[0]).unwrap(), rows);
    assert_eq!(text_of(&mut clients[0]).unwrap(), "");
}

#[test]
fn nobody_else_reads_it() {
    let mut clients = Service::open_with_journal(&Limits::default(), &users()).unwrap();
    assert_eq!(
        text_of(&mut clients[1]).unwrap_err().raw_os_error(),
        Some(EINVAL)
    );
    let mut clients = Service::open(&Limits::default(), &users()).unwrap();
    assert_eq!(
        text_of(&mut clients[0]).unwrap_err().raw_os_error(),
        Some(EINVAL)
    );
}
