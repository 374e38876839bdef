//! A report as one page of HTML, for a browser and for paper. The page shows the programs, their
//! orders, what all of them have in common, and what each says beyond that. It loads nothing from
//! outside.

use crate::table::Table;
use crate::why::{Line, word};
use record_engine::Order;

/// With more programs than this, the page tells orders by signs and not by words.
const MOST_WORDS: usize = 8;

/// What a page is made of.
pub struct Report<'a> {
    pub table: &'a Table,
    /// The table's file.
    pub file: &'a str,
    /// The folder that all programs are in, with its last slash, if there is one.
    pub folder: &'a str,
    pub programs: Vec<Program>,
    /// Of each two programs, by their places, the order of the first to the second.
    pub order: &'a dyn Fn(usize, usize) -> Order,
    pub common: Part,
    /// Why there are no pictures, if there are none.
    pub without_pictures: Option<String>,
}

/// A program, and what it says beyond what all have in common.
pub struct Program {
    /// Its name, without the folder that all programs are in.
    pub name: String,
    pub nodes: usize,
    pub links: usize,
    /// The whole program as text.
    pub text: String,
    /// The place of the first program that means the same.
    pub first: usize,
    pub beyond: Option<Beyond>,
}

/// What a program says beyond what all have in common.
pub struct Beyond {
    pub part: Part,
    /// The path of each line, and the line.
    pub lines: Vec<(String, Line)>,
}

/// A graph as text and as a picture.
#[derive(Default)]
pub struct Part {
    /// What the engine refuses, if it does.
    pub refused: Option<String>,
    pub text: String,
    /// The picture as SVG, if there is one.
    pub picture: Option<String>,
}

impl Report<'_> {
    /// The whole page.
    pub fn page(&self) -> String {
        let count = self.programs.len();
        let table = self.file.rsplit('/').next().unwrap_or(self.file);
        let title = match count {
            1 => format!("1 program over {}", escaped(table)),
            _ => format!("{count} programs over {}", escaped(table)),
        };
        let (n, fingerprint) = (self.table.n, self.table.fingerprint());
        let version = env!("CARGO_PKG_VERSION");
        let folder = match self.folder {
            "" => String::new(),
            folder => format!(" The programs are in {}.", escaped(folder)),
        };
        let file = escaped(self.file);
        let mut page = format!(
            "<!DOCTYPE html>\n<html lang=\"en\">\n<head>\n<meta charset=\"utf-8\">\n\
             <meta name=\"viewport\" content=\"width=device-width, initial-scale=1\">\n\
             <title>{title}</title>\n<style>\n{}</style>\n</head>\n<body>\n<h1>{title}</h1>\n\
             <p class=\"small\">{file} is a table of {n} types, fingerprint {fingerprint}.{folder} \
             Written by fitting {version}.</p>\n",
            include_str!("report.css")
        );
        if let Some(why) = &self.without_pictures {
            page += &format!("<p class=\"small\">{}</p>\n", escaped(why));
        }
        page += &self.list();
        page += &self.orders();
        page += "<section>\n<h2>What all have in common</h2>\n";
        page += &part(&self.common, "What all have in common");
        page += "</section>\n";
        page += "<section>\n<h2>What each says beyond that</h2>\n";
        page += &self.legend();
        page += "</section>\n";
        for (place, program) in self.programs.iter().enumerate() {
            page += &self.program(place, program);
        }
        page + "</body>\n</html>\n"
    }

    /// The legend: what the words and the bold and grey parts mean in the sections of the programs.
    fn legend(&self) -> String {
        let pictures = match self.without_pictures {
            Some(_) => "",
            None => {
                "<p class=\"small\">In the pictures bold is what the program says beyond what all \
                 have in common, and grey is what all have in common. A node that several links \
                 lead to is tinted and has a capital.</p>\n"
            }
        };
        format!(
            "<p class=\"small\"><b>new</b>: not all have such a link. <b>apart</b>: not all join \
             the links to the node. <b>more</b>: the link leads to what not all say.</p>\n{pictures}"
        )
    }

    /// The programs as a table.
    fn list(&self) -> String {
        let mut rows = String::new();
        for (place, program) in self.programs.iter().enumerate() {
            let same = match program.first == place {
                true => String::new(),
                false => format!("<td class=\"same\">the same as {}</td>", program.first + 1),
            };
            rows += &format!(
                "<tr><td class=\"number\">{number}</td><td><a href=\"#p{number}\">{}</a></td>\
                 <td class=\"number\">{}</td><td class=\"number\">{}</td>{same}</tr>\n",
                escaped(&program.name),
                program.nodes,
                program.links,
                number = place + 1,
            );
        }
        format!(
            "<section>\n<h2>The programs</h2>\n<div class=\"wide\"><table>\n<thead><tr>\
             <th class=\"number\"></th><th>program</th><th class=\"number\">nodes</th>\
             <th class=\"number\">links</th></tr></thead>\n<tbody>\n{rows}</tbody>\n\
             </table></div>\n</section>\n"
        )
    }

    /// The orders as a table.
    fn orders(&self) -> String {
        let count = self.programs.len();
        if count < 2 {
            return String::new();
        }
        let numbers: String = (1..=count)
            .map(|number| format!("<th scope=\"col\">{number}</th>"))
            .collect();
        let mut rows = String::new();
        for (one, program) in self.programs.iter().enumerate() {
            rows += &format!(
                "<tr><th scope=\"row\" class=\"number\">{}</th><th class=\"name\">{}</th>",
                one + 1,
                escaped(&program.name)
            );
            for other in 0..count {
                rows += &match one == other {
                    true => "<td class=\"self\">–</td>".to_string(),
                    false => self.cell((self.order)(one, other)),
                };
            }
            rows += "</tr>\n";
        }
        let (class, signs) = match count > MOST_WORDS {
            true => (
                "orders signs",
                " Signs: <span class=\"same\">&nbsp;=&nbsp;</span> same, \
                 <span class=\"under\">&nbsp;&lt;&nbsp;</span> under, \
                 <span class=\"above\">&nbsp;&gt;&nbsp;</span> above, · neither.",
            ),
            false => ("orders", ""),
        };
        format!(
            "<section>\n<h2>Which lie under which</h2>\n<p class=\"small\">A program is under \
             another when it says all that the other says, and more. A cell tells what the \
             program of its row is to that of its column.{signs}</p>\n<div class=\"wide\">\
             <table class=\"{class}\">\n<thead><tr><th></th><th class=\"name\"></th>\
             {numbers}</tr></thead>\n<tbody>\n\
             {rows}</tbody>\n</table></div>\n</section>\n"
        )
    }

    fn cell(&self, order: Order) -> String {
        let (word, sign) = match order {
            Order::Same => ("same", "="),
            Order::Under => ("under", "&lt;"),
            Order::Above => ("above", "&gt;"),
            Order::Neither => ("neither", "·"),
        };
        let text = match self.programs.len() > MOST_WORDS {
            true => sign,
            false => word,
        };
        format!("<td class=\"{word}\">{text}</td>")
    }

    /// The section of a program.
    fn program(&self, place: usize, program: &Program) -> String {
        let (number, name) = (place + 1, escaped(&program.name));
        let mut section = format!("<section id=\"p{number}\">\n<h3>{number}. {name}</h3>\n");
        match &program.beyond {
            None => {
                let first = &self.programs[program.first];
                section += &format!(
                    "<p>It means the same as <a href=\"#p{0}\">{0}. {1}</a>.</p>\n",
                    program.first + 1,
                    escaped(&first.name)
                );
            }
            Some(beyond) => section += &self.beyond(beyond, &program.name),
        }
        section
            + &format!(
                "<details>\n<summary class=\"small\">the whole program as text</summary>\n\
                 <pre>{}</pre>\n</details>\n</section>\n",
                escaped(&program.text)
            )
    }

    /// What a program says beyond what all have in common.
    fn beyond(&self, beyond: &Beyond, name: &str) -> String {
        let caption = match self.common.refused {
            Some(_) => return part(&beyond.part, name),
            None => format!("{name} over what all have in common"),
        };
        if beyond.lines.is_empty() {
            return "<p>It says what all have in common, and no more.</p>\n".to_string();
        }
        let mut rows = String::new();
        for (path, line) in &beyond.lines {
            let (path, words) = (escaped(path), escaped(&line.words));
            let word = word(line.reason);
            rows += &format!(
                "<tr><td class=\"path\">{path}</td><td class=\"word\">{word}</td>\
                 <td>{words}</td></tr>\n"
            );
        }
        let table = format!(
            "<div class=\"wide\"><table class=\"reasons\">\n<tbody>\n{rows}</tbody>\n\
             </table></div>\n"
        );
        table + &part(&beyond.part, &caption)
    }
}

/// A graph as picture and text.
fn part(part: &Part, caption: &str) -> String {
    let mut html = String::new();
    if let Some(refused) = &part.refused {
        html += &format!("<pre>{}</pre>\n", escaped(refused));
    }
    if let Some(picture) = &part.picture {
        let caption = escaped(caption);
        let label = format!("<svg role=\"img\" aria-label=\"{caption}\"");
        html += &format!(
            "<figure>\n{}</figure>\n",
            inline(picture).replacen("<svg", &label, 1)
        );
    }
    if !part.text.is_empty() {
        html += &format!("<pre>{}</pre>\n", escaped(&part.text));
    }
    html
}

/// The element `svg` of a picture that `dot` made, without comments, titles and identifiers. A
/// browser would show the titles, and the identifiers are the same in every picture.
fn inline(picture: &str) -> String {
    let begin = picture.find("<svg").unwrap_or(0);
    let mut rest = &picture[begin..];
    let mut text = String::new();
    let dropped = [("<!--", "-->"), ("<title>", "</title>"), (" id=\"", "\"")];
    loop {
        let next = dropped.iter().filter_map(|&(open, close)| {
            let at = rest.find(open)?;
            let end = rest[at + open.len()..].find(close)?;
            Some((at, at + open.len() + end + close.len()))
        });
        let Some((at, end)) = next.min() else {
            return text + rest;
        };
        text += &rest[..at];
        // The line end behind a part that stood alone in its line is left out too.
        let alone = text.ends_with('\n') || text.is_empty();
        rest = &rest[end..];
        if alone {
            rest = rest.strip_prefix('\n').unwrap_or(rest);
        }
    }
}

/// A text as HTML shows it.
fn escaped(text: &str) -> String {
    text.replace('&', "&amp;")
        .replace('<', "&lt;")
        .replace('>', "&gt;")
        .replace('"', "&quot;")
}

#[cfg(test)]
mod tests {
    use super::*;

    #[test]
    fn a_picture_is_put_into_the_page() {
        let drawn = "<?xml version=\"1.0\"?>\n<!DOCTYPE svg>\n<!-- by dot -->\n\
                     <svg width=\"8pt\">\n<g id=\"graph0\" class=\"graph\">\n<!-- n0 -->\n\
                     <g id=\"node1\">\n<title>n0</title>\n<text>a &amp; b</text>\n</g>\n</g>\n</svg>\n";
        assert_eq!(
            inline(drawn),
            "<svg width=\"8pt\">\n<g class=\"graph\">\n<g>\n<text>a &amp; b</text>\n</g>\n</g>\n</svg>\n"
        );
        assert_eq!(escaped("<a&\"b\">"), "&lt;a&amp;&quot;b&quot;&gt;");
    }
}
