//! The sample rulings, and the script that makes a width list.

mod common;

use common::Folder;
use std::process::{Command, Output};

const SAMPLES: &str = concat!(env!("CARGO_MANIFEST_DIR"), "/../samples");

fn sample(name: &str) -> Vec<u8> {
    std::fs::read(format!("{SAMPLES}/{name}")).expect("the sample can be read")
}

fn widths_script(folder: &Folder, arguments: &[&str]) -> Output {
    let mut command = Command::new("sh");
    command.arg(format!("{SAMPLES}/widths.sh")).args(arguments);
    command.current_dir(folder.path("")).output().expect("the shell runs")
}

#[test]
fn the_ruling_is_accepted_and_has_two_pages() {
    let folder = Folder::new("ruling");
    folder.put("stream", &sample("ruling.out"));
    folder.put("widths", &sample("ruling.widths"));
    let ran = folder.run(&["check", "-w", "widths", "stream"]);
    let row = ran.text().lines().nth(1).expect("there is a row");
    assert_eq!(row.split_whitespace().take(2).collect::<Vec<_>>(), ["accepted", "2"]);
    // its spelling has the same glyphs
    let found = || folder.run(&["find", "-w", "widths", "-e", "path", "stream"]);
    let before = found();
    folder.put("stream", &folder.run(&["respell", "-w", "widths", "stream"]).out);
    assert_eq!(found(), before);
    assert!(before.text().starts_with("hit "), "{}", before.text());
}

/// The second volume has the village under two other names, so that no one name finds it everywhere.
#[test]
fn the_second_ruling_has_other_names() {
    let folder = Folder::new("ruling-2");
    folder.put("stream", &sample("ruling-2.out"));
    folder.put("widths", &sample("ruling.widths"));
    let hits = |text: &str| {
        let ran = folder.run(&["find", "-w", "widths", "-e", text, "stream"]);
        assert_eq!(ran.status, 0, "{}", ran.err);
        ran.text().lines().filter(|line| line.starts_with("hit ")).count()
    };
    assert_eq!(hits("Val\\['e]nou"), 0);
    let (marked, byte) = (hits("Val\\[u0065_0301]nou"), hits("Val\\xE9nou"));
    assert!(marked > 0 && byte > 0);
    assert_eq!(hits("Valénou"), marked + byte);
}

/// The files that the samples have name no place on the machine they were made on.
#[test]
fn the_rulings_name_no_path() {
    for name in ["ruling.out", "ruling-2.out"] {
        let stream = sample(name);
        let controls = stream.split(|&byte| byte == b'\n').filter(|line| line.starts_with(b"x "));
        assert!(controls.clone().count() >= 5);
        assert!(controls.clone().all(|line| !line.contains(&b'/') && !line.starts_with(b"x F")));
    }
}

/// Glyphs of one byte alone, bytes rising; `"` stands for the metrics of the line before.
#[test]
fn a_list_from_font_files() {
    let folder = Folder::new("fonts");
    folder.put("DESC", b"res 72000\nunitwidth 1000\nfonts 2 A B\n");
    let kerns = "name A\nspacewidth 250\nkernpairs\na b -40\n";
    let glyphs = "charset\nfi\t556,683\t0\t174\tfi\nb\t500,683\t0\t98\nspace\t250\t0\t32\n\
                  \"\t408,676\t2\t34\tquotedbl\ndq\t\"\nhy\t333\t0\t45\n-\t\"\n#\t501,1\t2\t35\n";
    folder.put("A", [kerns, glyphs].concat().as_bytes());
    folder.put("B", b"# a comment\nname B\ncharset\na\t7\t0\t97\nkernpairs\nb a 3\n");
    let made = widths_script(&folder, &[".", "A", "B"]);
    assert!(made.status.success());
    let list = "unitwidth=1000\nfont=A\nbyte=34\nwidth=408\nbyte=35\nwidth=501\nbyte=45\nwidth=333\n\
                byte=98\nwidth=500\nfont=B\nbyte=97\nwidth=7\n";
    assert_eq!(String::from_utf8_lossy(&made.stdout), list);
    folder.put("widths", &made.stdout);
    assert_eq!(folder.run(&["glyphs", "-w", "widths", "stream"]).text(), "refused 9 69\n");
}

#[test]
fn a_list_that_cannot_be_made() {
    let folder = Folder::new("no-fonts");
    folder.put("DESC", b"unitwidth 1000\n");
    assert_eq!(widths_script(&folder, &["."]).status.code(), Some(2));
    assert!(!widths_script(&folder, &[".", "none"]).status.success());
    folder.put("DESC", b"res 72000\n");
    folder.put("A", b"charset\n");
    assert!(!widths_script(&folder, &[".", "A"]).status.success());
}
