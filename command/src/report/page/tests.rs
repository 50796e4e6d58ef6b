use super::text::commas;
use super::well_formed::fault;
use super::*;

/// Names that would be read as markup if they were not escaped.
const MARKUP: &str = "<script>alert(\"R&D's\")</script>\u{1b}";

/// A growth from 3 to 5 disks with 5 rows, three of whose seven calls are left.
fn growth() -> Growth {
    Growth {
        number: 1,
        from: 3,
        to: 5,
        running: true,
        calls_left: 3,
        calls_total: 7,
        window: 0,
        windows: 1,
        stays: vec![3, 3, 3, 0, 0],
        arrives: vec![0, 0, 0, 3, 3],
        leaves: vec![2, 2, 2, 0, 0],
        added: vec![2, 2, 2, 2, 2],
    }
}

fn scenes(count: u64, disks: usize) -> Scenes {
    let scene = |i| NamedScene { first: 10 * i, count: 10, name: format!("Scene {i}"), served: vec![2; disks] };
    Scenes { source: "show.scenes".into(), scenes: (0..count).map(scene).collect(), served: vec![2 * count; disks] }
}

/// A volume in the growth above, after 4 of its 6 copies are recorded.
fn facts() -> Facts {
    let row = |row: u64| (row, vec![Some(3 * row), Some(3 * row + 1), Some(3 * row + 2), None, None]);
    Facts {
        name: "rack-7.img".into(),
        made: "2026-11-17 18:30 UTC".into(),
        form: "one image file".into(),
        block_bytes: 512,
        rows: 5,
        counts: vec![3, 5],
        open_blocks: 15,
        now: vec![3, 4, 4, 2, 2],
        growth: Some(growth()),
        moved: vec![11, 4],
        scenes: None,
        chart: Chart { rows: (0..5).map(row).collect(), moved: vec![vec![1, 0, 0, 0, 0]; 5], left_out: 0 },
    }
}

/// The largest numbers that the types hold, on 16 disks.
fn largest() -> Facts {
    let all = vec![u64::MAX; 16];
    let lists =
        Growth { stays: all.clone(), arrives: all.clone(), leaves: all.clone(), added: all.clone(), ..growth() };
    let chart = Chart {
        rows: vec![(u64::MAX, vec![Some(u64::MAX); 16]); 3],
        moved: vec![vec![u64::MAX; 16]; 3],
        left_out: u64::MAX,
    };
    Facts {
        block_bytes: u64::MAX,
        rows: u64::MAX,
        counts: vec![1, 2, 4, 6, 8, 10, 12, 16],
        open_blocks: u64::MAX,
        now: all.clone(),
        growth: Some(Growth { from: 12, to: 16, calls_left: 0, calls_total: u64::MAX, ..lists }),
        moved: all[..8].to_vec(),
        scenes: Some(Scenes { served: all, ..scenes(41, 16) }),
        chart,
        ..facts()
    }
}

/// Volumes at the edges of what the page is asked to show.
fn extremes() -> Vec<Facts> {
    let one = Facts { counts: vec![1], now: vec![5], growth: None, moved: vec![5], ..facts() };
    let idle = Facts { scenes: Some(Scenes { served: vec![0; 5], ..scenes(0, 5) }), ..facts() };
    let short = Facts { now: vec![], moved: vec![], growth: Some(Growth { to: 5, ..Growth::default() }), ..facts() };
    let zeros = Facts { now: vec![0; 5], moved: vec![0; 8], chart: Chart::default(), ..facts() };
    vec![Facts::default(), facts(), one, idle, short, zeros, largest()]
}

/// The words of the texts that follow the first `after`, in the order of the page.
fn texts_after<'a>(page: &'a str, after: &str) -> Vec<&'a str> {
    let start = page.find(after).expect("the text is on the page");
    let texts = page[start..].split("</text>").filter_map(|piece| piece.rsplit_once('>'));
    texts.map(|(_, words)| words).collect()
}

#[test]
fn every_page_is_well_formed() {
    let page = |facts: &Facts| page(facts).strip_prefix("<!DOCTYPE html>\n").map(str::to_string);
    let faults: Vec<String> = extremes().iter().filter_map(|facts| fault(&page(facts)?)).collect();
    assert_eq!(faults, Vec::<String>::new());
    assert!(page(&facts()).is_some());
}

#[test]
fn names_from_outside_are_escaped() {
    let mut facts = Facts { name: MARKUP.into(), made: MARKUP.into(), form: MARKUP.into(), ..facts() };
    let mut list = scenes(1, 5);
    list.source = MARKUP.into();
    list.scenes[0].name = MARKUP.into();
    facts.scenes = Some(list);
    let page = page(&facts);
    let escaped = "&lt;script&gt;alert(&quot;R&amp;D&#39;s&quot;)&lt;/script&gt;\u{fffd}";
    assert_eq!(page.matches(escaped).count(), 6, "in the title, the heading, the form, the date, the list, the scene");
    assert!(!page.contains("<script"));
    assert_eq!(fault(page.trim_start_matches("<!DOCTYPE html>")), None);
}

#[test]
fn every_number_in_a_picture_is_finite_and_not_negative() {
    let pages: String = extremes().iter().map(page).collect();
    let names = ["x", "y", "x1", "x2", "y1", "y2", "width", "height"].map(|name| format!(" {name}=\""));
    let starts = names.iter().flat_map(|name| pages.match_indices(name.as_str()).map(|(at, name)| at + name.len()));
    let numbers = starts.map(|start| pages[start..].split('"').next().and_then(|text| text.parse::<f64>().ok()));
    let wrong = numbers.filter(|number| number.is_none_or(|number| !number.is_finite() || number < 0.0));
    assert_eq!(wrong.count(), 0);
    assert!(!pages.contains("NaN") && !pages.contains("\"inf") && !pages.contains("0 inf"));
}

#[test]
fn the_sums_shown_are_the_sums_of_the_input() {
    let page = page(&facts());
    let both = texts_after(&page, "aria-label=\"Blocks on each disk before and after growth 1\"");
    let end = both.iter().position(|words| *words == "all disks").expect("a line of sums");
    assert_eq!(both[end..end + 5], ["all disks", "9", "6", "6", "10"]);
    let now = texts_after(&page, "aria-label=\"Open blocks on each disk now\"");
    let end = now.iter().position(|words| *words == "all disks").expect("a line of sums");
    assert_eq!(now[end + 1], commas(facts().open_blocks));
    let moved = texts_after(&page, "aria-label=\"How many blocks were moved how often\"");
    let end = moved.iter().position(|words| *words == "all").expect("a line of sums");
    assert_eq!(moved[end + 1], commas(facts().open_blocks));
    assert!(page.contains("made 4 moves."));
}

#[test]
fn the_bars_show_what_is_on_each_disk_before_and_after() {
    let page = page(&facts());
    let drawn = |part: &str| page.matches(&format!("<title>{part}</title>")).count();
    assert_eq!((drawn("disk 0: 3 stay"), drawn("disk 0: 2 leave"), drawn("disk 0: 2 added")), (2, 1, 1));
    assert_eq!((drawn("disk 3: 3 arrive"), drawn("disk 3: 2 added")), (1, 1));
    assert_eq!(page.matches(">not in the volume</text>").count(), 2);
    assert_eq!((drawn("disk 1: 4 open blocks"), drawn("1 time: 4 blocks")), (1, 1));
}

#[test]
fn how_far_a_growth_is() {
    let running = page(&facts());
    assert!(running.contains("57\u{a0}%") && running.contains("3 of 7 advance calls left, 0 of 1 window finished"));
    let finished = Facts { growth: Some(Growth { running: false, calls_left: 0, window: 1, ..growth() }), ..facts() };
    let finished = page(&finished);
    assert!(finished.contains("100\u{a0}%") && finished.contains("is finished: 1 window, 7 advance calls."));
    let none = page(&Facts { counts: vec![3], growth: None, ..facts() });
    assert!(none.contains("<h2>Blocks on each disk</h2>") && none.contains("The history has no growth."));
    assert!(running.contains("3 → 5 disks") && !none.contains(" → "));
}

#[test]
fn a_scene_list_shows_its_busiest_disk_and_at_most_forty_scenes() {
    assert!(!page(&facts()).contains("Load of the scene list"));
    let even = page(&Facts { scenes: Some(scenes(40, 5)), ..facts() });
    assert!(even.contains("The load is even: each disk serves 80 blocks.") && !even.contains("more</p>"));
    let uneven = Scenes { served: vec![10, 10, 20, 0, 10], ..scenes(1_046, 5) };
    let uneven = page(&Facts { scenes: Some(uneven), ..facts() });
    assert!(uneven.contains("The busiest disk, disk 2, serves 20 blocks: 2.00 times the mean of 10.0."));
    assert_eq!(uneven.matches("<tr><th class=\"name\">").count(), 40);
    assert!(uneven.contains("<p>and 1,006 more</p>"));
    let idle = page(&Facts { scenes: Some(scenes(0, 5)), ..facts() });
    assert!(idle.contains("It asks for no block.") && !idle.contains(">mean "));
}

#[test]
fn the_wall_chart_has_each_spot_and_says_which_rows_it_shows() {
    let whole = page(&facts());
    assert_eq!(whole.matches("<td class=\"none\">-</td>").count(), 10);
    assert!(whole.contains("<tr><th>2</th><td class=\"m1\">6</td><td class=\"m0\">7</td><td class=\"m0\">8</td>"));
    assert!(!whole.contains("the rest:"));
    let chart = Chart { left_out: 999_995, ..facts().chart };
    let part = page(&Facts { rows: 1_000_000, chart, ..facts() });
    assert!(part.contains("Rows 0 to 4 of 1,000,000; the rest: <code>streterva chart --rows</code>"));
}

#[test]
fn the_page_needs_no_other_file() {
    let page = page(&facts());
    let own = page.replace("http://www.w3.org/1999/xhtml", "").replace("http://www.w3.org/2000/svg", "");
    assert!(["http", "src=", "href=", "url(", "@import", "<script", "<link"].iter().all(|word| !own.contains(word)));
}
