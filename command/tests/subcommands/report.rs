//! `report`: which file it makes. What the page shows is in the test `report`.

use serde_json::json;

use crate::common::{Form, Rack, Refused, FORMS};

#[test]
fn a_page_is_written_and_replaced() {
    for form in FORMS {
        let rack = Rack::new(form, 8, 3);
        let told = rack.done("report volume page.html");
        assert_eq!(told.text(), "volume: the report is in page.html\n");
        let first = String::from_utf8(rack.get("page.html")).expect("a page is text");
        assert!(first.starts_with("<!DOCTYPE html>") && first.ends_with("</html>\n"));
        assert!(first.contains("<title>volume: Streterva volume report</title>"));
        rack.done("grow volume 5");
        let told = rack.told("report volume page.html");
        let second = String::from_utf8(rack.get("page.html")).expect("a page is text");
        assert_eq!(told, json!({"volume": "volume", "page": "page.html", "bytes": second.len()}));
        assert!(second.contains("Growth 1 runs") && !first.contains("Growth 1 runs"));
    }
}

#[test]
fn a_page_is_not_written_over_another_file() {
    let rack = Rack::new(Form::Image, 8, 3);
    rack.put("notes.html", "<!DOCTYPE html>\n<title>Notes</title>\n");
    let sentence = "notes.html exists already; --force overwrites it";
    rack.refused("report volume notes.html", Refused(1, None, sentence));
    rack.done("report volume notes.html --force");
    assert!(rack.get("notes.html").len() > 1000);
}

#[test]
fn the_load_of_a_scene_list_is_shown() {
    let rack = Rack::new(Form::Folder, 8, 3);
    rack.put("scenes", "0 5 opening\n5 19 <b>the & rest</b>\n");
    rack.done("report volume page.html --scenes scenes");
    let page = String::from_utf8(rack.get("page.html")).expect("a page is text");
    assert!(page.contains("opening") && page.contains("&lt;b&gt;the &amp; rest&lt;/b&gt;"));
    let told = rack.fed("report volume page.html --scenes -", b"0 24 all of it\n").done();
    assert_eq!(told.text(), "volume: the report is in page.html\n");
    assert!(String::from_utf8_lossy(&rack.get("page.html")).contains("all of it"));
}

/// A list that is refused leaves the earlier page.
#[test]
fn a_wrong_scene_list() {
    let rack = Rack::new(Form::Image, 8, 3);
    rack.done("report volume page.html");
    rack.put("scenes", "0 24\n3 22\n");
    let sentence =
        "refused with 17: the scene at place 1 reaches past the open blocks or stands after the first 65,536";
    rack.refused("report volume page.html --scenes scenes", Refused(1, Some(17), sentence));
}
