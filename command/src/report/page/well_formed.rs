//! A test whether a text is well-formed XML, as far as the page uses it: no comments, and five escapes.

/// What is wrong with the text; nothing if it is well-formed.
pub fn fault(text: &str) -> Option<String> {
    let mut open = Vec::new();
    let mut rest = text;
    while let Some((words, from_tag)) = rest.split_once('<') {
        let Some((tag, after)) = from_tag.split_once('>') else {
            return Some(format!("the tag has no end: {from_tag}"));
        };
        if let Some(fault) = words_fault(words).or_else(|| tag_fault(tag, &mut open)) {
            return Some(fault);
        }
        rest = after;
    }
    words_fault(rest).or_else(|| open.pop().map(|name| format!("not closed: {name}")))
}

/// What is wrong with a tag, given the elements that are open; it opens or closes one of them, or neither.
fn tag_fault<'a>(tag: &'a str, open: &mut Vec<&'a str>) -> Option<String> {
    if let Some(name) = tag.strip_prefix('/') {
        let last = open.pop();
        return (last != Some(name)).then(|| format!("{name} closes {last:?}"));
    }
    let closed = tag.strip_suffix('/');
    let tag = closed.unwrap_or(tag);
    let (name, attributes) = tag.split_once(' ').unwrap_or((tag, ""));
    if name.is_empty() || !name.chars().all(|c| c.is_ascii_alphanumeric()) {
        return Some(format!("no name of an element: {name}"));
    }
    if closed.is_none() {
        open.push(name);
    }
    attributes_fault(attributes)
}

fn attributes_fault(attributes: &str) -> Option<String> {
    let mut names = Vec::new();
    let mut rest = attributes.trim();
    while !rest.is_empty() {
        let Some((name, (value, after))) = rest.split_once("=\"").and_then(|(n, v)| Some((n, v.split_once('"')?)))
        else {
            return Some(format!("no attribute: {rest}"));
        };
        if names.contains(&name) || !name.chars().all(|c| c.is_ascii_alphanumeric() || c == '-') {
            return Some(format!("no name of an attribute, or twice: {name}"));
        }
        if let Some(fault) = words_fault(value) {
            return Some(fault);
        }
        names.push(name);
        rest = after.trim_start();
    }
    None
}

/// What is wrong with the words between tags or quotes.
fn words_fault(words: &str) -> Option<String> {
    let escapes = ["lt;", "gt;", "amp;", "quot;", "#39;"];
    let is_escape = |rest: &str| escapes.iter().any(|escape| rest.starts_with(escape));
    if words.chars().any(|c| c.is_control() && c != '\n') {
        return Some(format!("a control character in: {words}"));
    }
    words.split('&').skip(1).find(|rest| !is_escape(rest)).map(|rest| format!("no escape: &{rest}"))
}

#[test]
fn faults_are_found() {
    let sound = "<p class=\"a\" id=\"b\">R&amp;D <b>x</b><br /></p>\n";
    assert_eq!(fault(sound), None);
    let wrong =
        ["<p>", "</p>", "<p><b></p></b>", "<p a=b></p>", "<p a=\"1\" a=\"2\"></p>", "R&D", "<p", "\u{1b}", "< p></ p>"];
    assert!(wrong.iter().all(|text| fault(text).is_some()));
}
