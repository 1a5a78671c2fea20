//! Writes drafts out as messages.

use crate::chance::Chance;
use crate::draft::{Draft, Element, Node, Style, NAMESPACE};

pub fn render(draft: &Draft, chance: &mut Chance) -> Vec<u8> {
    let mut writer = Writer { out: draft.before.clone(), draft, chance };
    let declares = match &draft.declares {
        Some(declares) => declares.clone(),
        None if draft.prefix.is_empty() => format!(" xmlns=\"{NAMESPACE}\""),
        None => format!(" xmlns:{}=\"{NAMESPACE}\"", draft.prefix),
    };
    writer.element(&draft.root, &declares);
    let mut message = writer.out;
    message.extend(&draft.after);
    while message.len() < draft.fill {
        message.push(chance.pick(b" \n\t\r"));
    }
    message
}

const COMMENTS: [&str; 9] = [
    "<!---->",
    "<!-- - -->",
    "<!--->-->",
    "<!--<a>&b]]>-->",
    "<!--\n-->",
    "<!--x-->",
    "<!--x--><!----><!--y-->",
    "<!--é-->",
    "<!--\u{800}\u{10ffff}-->",
];

const SKIPPED: [&str; 9] = [
    "<note/>",
    "<q:info><eventCode/></q:info>",
    "<z a = '1'\tb=\"&lt;>\" />",
    "<web>http://x/&amp;y</web >",
    "<z><info><expires/></info>t</z>",
    "<contact\n>c<!-- -->d</contact\t>",
    "<z q:a=\"\" r:a=''/>",
    "<web a='ñ'>¿&#xe9;?</web>",
    "<z>\u{7f}<description>\u{1f4a7}</description></z>",
];

struct Writer<'a> {
    out: Vec<u8>,
    draft: &'a Draft,
    chance: &'a mut Chance,
}

impl Writer<'_> {
    fn style(&self) -> Style {
        self.draft.style
    }

    fn happens(&mut self, times: usize) -> bool {
        times > 0 && self.chance.once_in(times)
    }

    fn put(&mut self, text: &str) {
        self.out.extend(text.as_bytes());
    }

    fn gap(&mut self) {
        if self.happens(self.style().gaps) {
            let gap = self.chance.pick(&[" ", "\n", "\t", "\r\n", "  ", "\n\n "]);
            self.put(gap);
        }
    }

    fn element(&mut self, element: &Element, declares: &str) {
        let name = if self.draft.prefix.is_empty() || element.name.contains(':') {
            element.name.clone()
        } else {
            format!("{}:{}", self.draft.prefix, element.name)
        };
        self.put(&format!("<{name}{declares}{}", element.attributes));
        self.gap();
        if element.children.is_empty() && self.chance.once_in(2) {
            self.put("/>");
            return;
        }
        self.put(">");
        self.children(element);
        self.put(&format!("</{name}"));
        self.gap();
        self.put(">");
    }

    fn children(&mut self, element: &Element) {
        let mut order: Vec<usize> = (0..element.children.len()).collect();
        if self.style().shuffled {
            for place in (1..order.len()).rev() {
                order.swap(place, self.chance.below(place + 1));
            }
        }
        for place in order {
            match &element.children[place] {
                Node::Element(child) => {
                    self.between();
                    self.element(child, "");
                }
                Node::Text(text) => self.text(text),
                Node::Raw(raw) => self.out.extend(raw),
            }
        }
    }

    /// What may stand between the elements of a container.
    fn between(&mut self) {
        self.gap();
        if self.happens(self.style().comments) {
            let comment = self.chance.pick(&COMMENTS);
            self.put(comment);
        }
        if self.happens(self.style().skipped) {
            let skipped = self.chance.pick(&SKIPPED);
            self.put(skipped);
        }
        self.gap();
    }

    fn text(&mut self, text: &str) {
        self.gap();
        for letter in text.chars() {
            if self.happens(self.style().comments * 8) {
                let comment = self.chance.pick(&COMMENTS);
                self.put(comment);
            }
            self.letter(letter);
        }
        self.gap();
    }

    fn letter(&mut self, letter: char) {
        let by_reference = self.happens(self.style().references);
        match letter {
            '<' if !by_reference => self.put("&lt;"),
            '&' if !by_reference => self.put("&amp;"),
            '>' if self.out.ends_with(b"]]") => self.put("&gt;"),
            '"' if by_reference => self.put("&quot;"),
            '\'' if by_reference => self.put("&apos;"),
            ' ' => {
                self.out.push(b' ');
                self.gap();
            }
            _ if by_reference => self.numbered(letter.into()),
            _ => self.put(letter.encode_utf8(&mut [0; 4])),
        }
    }

    /// A reference of up to seven digits, some of them zeros before the number.
    fn numbered(&mut self, number: u32) {
        let digits = self.chance.pick(&[1, 1, 2, 3, 4, 5, 6, 7, 7]);
        let reference = match self.chance.below(3) {
            0 => format!("&#{number:0digits$};"),
            1 => format!("&#x{number:0digits$x};"),
            _ => format!("&#x{number:0digits$X};"),
        };
        self.put(&reference);
    }
}
