//! The panel's screen.

use crate::failure::Failure;
use crate::roster::{cells, widths};
use crate::season::Answers;
use crossterm::event::{self, Event, KeyCode, KeyModifiers};
use crossterm::terminal::{disable_raw_mode, enable_raw_mode, EnterAlternateScreen, LeaveAlternateScreen};
use crossterm::{cursor, execute};
use std::io::{self, Stdout};
use std::time::{Duration, Instant};
use tui::backend::{Backend, CrosstermBackend};
use tui::layout::{Constraint, Direction, Layout, Rect};
use tui::style::{Modifier, Style};
use tui::widgets::{Block, Borders, Paragraph, Row, Table};
use tui::{Frame, Terminal};

/// What a panel shows.
pub struct View<'a> {
    pub title: &'a str,
    pub roster: &'a [Answers],
    pub events: &'a [String],
    pub state: &'a str,
}

/// Lines of the part with the last events, its border included.
const EVENTS: u16 = 6;

/// A terminal in full screen; it is put back as it was when this goes.
pub struct Screen {
    terminal: Terminal<CrosstermBackend<Stdout>>,
}

fn bad(error: io::Error) -> Failure {
    Failure::at("the terminal", error)
}

impl Screen {
    pub fn open() -> Result<Screen, Failure> {
        enable_raw_mode().map_err(bad)?;
        execute!(io::stdout(), EnterAlternateScreen, cursor::Hide).map_err(bad)?;
        let terminal = Terminal::new(CrosstermBackend::new(io::stdout())).map_err(bad)?;
        Ok(Screen { terminal })
    }

    pub fn draw(&mut self, view: &View) -> Result<(), Failure> {
        self.terminal.draw(|frame| draw(frame, view)).map(drop).map_err(bad)
    }

    /// Waits, and says whether `q` or Ctrl-C was pressed meanwhile, where there are keys at all.
    pub fn stopped_within(&mut self, time: Duration) -> Result<bool, Failure> {
        let end = Instant::now() + time;
        while let Some(left) = end.checked_duration_since(Instant::now()) {
            if !event::poll(left).map_err(bad)? {
                return Ok(false);
            }
            if let Event::Key(key) = event::read().map_err(bad)? {
                let control = key.modifiers.contains(KeyModifiers::CONTROL);
                if key.code == KeyCode::Char('q') || (control && key.code == KeyCode::Char('c')) {
                    return Ok(true);
                }
            }
        }
        Ok(false)
    }
}

impl Drop for Screen {
    fn drop(&mut self) {
        // nothing can be done where the terminal is gone
        let _ = disable_raw_mode();
        let _ = execute!(io::stdout(), LeaveAlternateScreen, cursor::Show);
    }
}

fn draw<B: Backend>(frame: &mut Frame<B>, view: &View) {
    let rows = [Constraint::Min(3), Constraint::Length(EVENTS), Constraint::Length(1)];
    let parts = Layout::default().direction(Direction::Vertical).constraints(rows).split(frame.size());
    let share = Constraint::Ratio(1, view.roster.len().max(1) as u32);
    let shares = vec![share; view.roster.len()];
    let areas = Layout::default().direction(Direction::Vertical).constraints(shares).split(parts[0]);
    for (answers, area) in view.roster.iter().zip(areas) {
        draw_table(frame, view.title, answers, area);
    }
    let room = usize::from(parts[1].height.saturating_sub(2));
    let last = &view.events[view.events.len().saturating_sub(room)..];
    let events = Paragraph::new(last.join("\n")).block(Block::default().borders(Borders::ALL).title(" pages "));
    frame.render_widget(events, parts[1]);
    frame.render_widget(Paragraph::new(view.state), parts[2]);
}

fn draw_table<B: Backend>(frame: &mut Frame<B>, title: &str, answers: &Answers, area: Rect) {
    let (head, rows) = cells(answers);
    let columns: Vec<Constraint> =
        widths(&head, &rows).into_iter().map(|width| Constraint::Length(width as u16)).collect();
    let bold = Style::default().add_modifier(Modifier::BOLD);
    let title = format!(" {title}: {} ", rows.len());
    let table = Table::new(rows.into_iter().map(Row::new))
        .header(Row::new(head).style(bold))
        .widths(&columns)
        .column_spacing(2)
        .block(Block::default().borders(Borders::ALL).title(title));
    frame.render_widget(table, area);
}

#[cfg(test)]
mod tests {
    use super::*;
    use tui::backend::TestBackend;
    use tui::buffer::Buffer;
    use willetcoffer::Term;

    #[test]
    fn a_roster_on_the_screen() {
        let row =
            |name: &str, speed| vec![Term::tagged("en", name).expect("a name"), Term::decimal(speed).expect("a speed")];
        let columns = ["name", "speed"].map(str::to_owned).to_vec();
        let answers = Answers::new(columns, vec![row("Mallard", 126_400_000), row("Adler", 65_000_000)]);
        let events =
            ["wants http://club.example/yard".to_owned(), "page  http://club.example/yard: 8 records".to_owned()];
        let view = View { title: "yard.page", roster: &[answers], events: &events, state: "waiting after 9 steps" };
        let mut terminal = Terminal::new(TestBackend::new(48, 13)).expect("a terminal");
        terminal.draw(|frame| draw(frame, &view)).expect("a drawing");
        let mut expected = Buffer::with_lines(vec![
            "┌ yard.page: 2 ────────────────────────────────┐",
            "│$name    $speed                               │",
            "│Mallard  126.4                                │",
            "│Adler    65.0                                 │",
            "│                                              │",
            "└──────────────────────────────────────────────┘",
            "┌ pages ───────────────────────────────────────┐",
            "│wants http://club.example/yard                │",
            "│page  http://club.example/yard: 8 records     │",
            "│                                              │",
            "│                                              │",
            "└──────────────────────────────────────────────┘",
            "waiting after 9 steps                           ",
        ]);
        expected.set_style(Rect::new(1, 1, 46, 1), Style::default().add_modifier(Modifier::BOLD));
        terminal.backend().assert_buffer(&expected);
    }
}
