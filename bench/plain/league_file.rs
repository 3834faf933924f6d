//! A league file's teams, game mode and constraints. Nothing is tested: the file is one that robin reads.
use crate::league::{Class, Constraint, League, PairSet, Side, SlotId, SlotSet, Span, TeamId, TeamSet};
use crate::prelude::{Global, Vec};

/// A tag without its brackets.
#[derive(Clone, Copy)]
struct Tag<'a>(&'a str);

impl<'a> Tag<'a> {
    fn text(self, name: &str) -> &'a str {
        let value = self.0.split_once(&format!(" {name}=\"")).map_or("", |(_, value)| value);
        value.split('"').next().unwrap_or("")
    }

    /// The number of an attribute, or what it is where it is absent.
    fn number(self, name: &str, absent: u32) -> u32 {
        self.text(name).parse().unwrap_or(absent)
    }

    fn numbers(self, name: &str) -> impl Iterator<Item = u16> + use<'a> {
        let words = self.text(name).split([';', ',']).filter(|word| !word.is_empty());
        words.map(|word| word.trim().parse().expect("a number"))
    }

    fn side(self, name: &str) -> Side {
        match self.text(name) {
            "H" => Side::H,
            "A" => Side::A,
            _ => Side::Both,
        }
    }

    fn teams(self, name: &str) -> TeamSet {
        let mut teams = TeamSet::new(Global);
        for number in self.numbers(name) {
            teams.insert(TeamId(number)).expect("memory");
        }
        teams
    }

    fn slots(self) -> SlotSet {
        let mut slots = SlotSet::new(Global);
        for number in self.numbers("slots") {
            slots.insert(SlotId(number)).expect("memory");
        }
        slots
    }

    fn meetings(self) -> PairSet {
        let numbers: std::vec::Vec<u16> = self.numbers("meetings").collect();
        let mut pairs = PairSet::new(Global);
        for pair in numbers.chunks(2) {
            pairs.insert((TeamId(pair[0]), TeamId(pair[1]))).expect("memory");
        }
        pairs
    }

    fn class(self) -> Option<Class> {
        let (teams, teams1, teams2) = (|| self.teams("teams"), || self.teams("teams1"), || self.teams("teams2"));
        let [min, max, intp] = ["min", "max", "intp"].map(|name| self.number(name, 0));
        let (side, slots) = (self.side("mode1"), self.slots());
        Some(match self.0.split_whitespace().next()? {
            "CA1" => Class::Ca1 { teams: teams(), min, max, side: self.side("mode"), slots },
            "CA2" => Class::Ca2 { teams1: teams1(), teams2: teams2(), min, max, side, slots },
            "CA3" => Class::Ca3 { teams1: teams1(), teams2: teams2(), min, max, intp, side },
            "CA4" => {
                let span = if self.text("mode2") == "EVERY" { Span::Every } else { Span::Global };
                Class::Ca4 { teams1: teams1(), teams2: teams2(), min, max, side, span, slots }
            }
            "GA1" => Class::Ga1 { meetings: self.meetings(), min, max, slots },
            "BR1" => Class::Br1 { teams: teams(), intp, side: self.side("mode2"), slots },
            "BR2" => Class::Br2 { teams: teams(), intp, slots },
            "FA2" => Class::Fa2 { teams: teams(), intp, slots },
            "SE1" => Class::Se1 { teams: teams(), min },
            _ => return None,
        })
    }
}

/// The league of a file's text.
pub fn league_of(text: &str) -> League {
    let mut constraints = Vec::new(Global);
    let mut teams = 0;
    for tag in text.split('<').filter_map(|part| part.split_once('>')).map(|(tag, _)| Tag(tag)) {
        teams += u16::from(tag.0.starts_with("team "));
        if let Some(class) = tag.class() {
            let (hard, penalty) = (tag.text("type") == "HARD", tag.number("penalty", 1));
            constraints.push(Constraint { hard, penalty, class }).expect("memory");
        }
    }
    League::new(teams, text.contains("<gameMode>P"), constraints)
}
