//! The worked example: a wholesaler's prices, put, billed, mended.
//!
//! ACCOUNTS (manual) hold the customers. PRICES (detail) holds one line for
//! each price agreed with an account, chained to the account in the order of
//! its dates. ARTICLES (automatic) comes and goes with the lines.
//!
//! Billing reads an account's chain backward: the first line met with the
//! article is the price billed. If two prices were agreed on one day, the one
//! put second must stand last. An engine that let a new line also pass the
//! lines that sort equal would bill the older price.

use maltorhu::{
    number, pack, two_words, unpack, Answer, Base, Chain, Condition, Entry, Item, Path, Read, Root,
    Session, Set, TooLong, Way,
};
use std::error::Error;
use std::fmt;
use std::process::ExitCode;

const ACCOUNT: u16 = 1;
const NAME: u16 = 2;
const ARTICLE: u16 = 3;
const PRICE: u16 = 4;
const DATE: u16 = 5;

const ACCOUNTS: u16 = 1;
const ARTICLES: u16 = 2;
const PRICES: u16 = 3;

const NAME_WORDS: u16 = 10;
const ARTICLE_WORDS: u16 = 4;

/// What ends the program: a condition or a text it has no answer to.
type Day<T> = Result<T, Box<dyn Error>>;

/// DATE is the last item of a line, so nothing behind it can order the chain.
fn root() -> Root {
    let items = [
        Item::K(1),             // ACCOUNT
        Item::X(NAME_WORDS),    // NAME
        Item::X(ARTICLE_WORDS), // ARTICLE
        Item::K(2),             // PRICE, in cents
        Item::K(2),             // DATE, as yyyymmdd
    ];
    let by_account = Path {
        master: ACCOUNTS,
        search: ACCOUNT,
        sort: Some(DATE),
    };
    let by_article = Path {
        master: ARTICLES,
        search: ARTICLE,
        sort: None,
    };
    let sets = [
        Set::Manual {
            capacity: 11,
            key: ACCOUNT,
            items: &[ACCOUNT, NAME],
        },
        Set::Automatic {
            capacity: 11,
            key: ARTICLE,
        },
        Set::Detail {
            capacity: 20,
            items: &[ACCOUNT, ARTICLE, PRICE, DATE],
            paths: &[by_account, by_article],
        },
    ];
    Root::new(&items, &sets)
}

struct Account {
    number: u16,
    name: String,
    record: u32,
}

impl Account {
    fn new(number: u16, name: &str) -> Account {
        Account {
            number,
            name: name.to_string(),
            record: 0,
        }
    }

    fn words(&self) -> Result<Vec<u16>, TooLong> {
        let name = pack(&self.name, NAME_WORDS.into())?;
        Ok([&[self.number][..], &name].concat())
    }
}

impl From<Entry> for Account {
    fn from(entry: Entry) -> Account {
        let (number, name) = (entry.words[0], text(&entry.words[1..]));
        Account {
            number,
            name,
            record: entry.record,
        }
    }
}

impl fmt::Display for Account {
    fn fmt(&self, f: &mut fmt::Formatter) -> fmt::Result {
        write!(
            f,
            "  {:4}  {:20}  record {:4}",
            self.number, self.name, self.record
        )
    }
}

struct Line {
    account: u16,
    article: String,
    date: u32,
    price: u32,
    /// None: not stored.
    record: Option<u32>,
}

impl Line {
    fn new(account: u16, article: &str, date: u32, price: u32) -> Line {
        Line {
            account,
            article: article.to_string(),
            date,
            price,
            record: None,
        }
    }

    fn words(&self) -> Result<Vec<u16>, TooLong> {
        let article = pack(&self.article, ARTICLE_WORDS.into())?;
        let (price, date) = (two_words(self.price), two_words(self.date));
        Ok([&[self.account][..], &article, &price, &date].concat())
    }
}

impl From<Entry> for Line {
    fn from(entry: Entry) -> Line {
        let words = &entry.words;
        Line {
            account: words[0],
            article: text(&words[1..5]),
            price: number([words[5], words[6]]),
            date: number([words[7], words[8]]),
            record: Some(entry.record),
        }
    }
}

impl fmt::Display for Line {
    fn fmt(&self, f: &mut fmt::Formatter) -> fmt::Result {
        let (year, month, day) = (self.date / 10000, self.date / 100 % 100, self.date % 100);
        write!(
            f,
            "  {:4}  {:8}  {year:04}-{month:02}-{day:02}",
            self.account, self.article
        )?;
        write!(f, "  {:>7}", money(self.price))?;
        self.record
            .map_or(Ok(()), |record| write!(f, "  record {record:4}"))
    }
}

/// Characters without the blanks at their end.
fn text(words: &[u16]) -> String {
    String::from_utf8_lossy(&unpack(words))
        .trim_end()
        .to_string()
}

fn money(cents: u32) -> String {
    format!("{}.{:02}", cents / 100, cents % 100)
}

fn find_account(session: &mut Session, number: u16) -> Answer<Chain> {
    session.find(PRICES, ACCOUNT, &[number])
}

fn find_article(session: &mut Session, article: &str) -> Day<Answer<Chain>> {
    let value = pack(article, ARTICLE_WORDS.into())?;
    Ok(session.find(PRICES, ARTICLE, &value))
}

fn get_account(session: &mut Session, number: u16) -> Answer<Account> {
    session
        .get(ACCOUNTS, Read::Key(&[number]))
        .map(Account::from)
}

fn get_line(session: &mut Session, read: Read) -> Answer<Line> {
    session.get(PRICES, read).map(Line::from)
}

fn open_accounts(session: &mut Session) -> Day<()> {
    println!("\nAccounts opened");
    for (number, name) in [
        (1001, "BAKER AND SONS"),
        (1012, "CORNER SHOP"),
        (1002, "DAILY BREAD"),
    ] {
        let mut account = Account::new(number, name);
        account.record = session.put(ACCOUNTS, &account.words()?)?.record;
        println!("{account}");
    }
    Ok(())
}

/// A price for an account that is not there is told and set aside.
fn put_line(session: &mut Session, mut line: Line) -> Day<()> {
    match session.put(PRICES, &line.words()?) {
        Ok(stored) => {
            line.record = Some(stored.record);
            println!("{line}, passed {}", stored.passed[0]);
        }
        Err(refusal @ Condition::NoMaster(1)) => {
            println!(
                "{line}  refused, {}: no account {}",
                refusal.number(),
                line.account
            );
        }
        Err(other) => return Err(other.into()),
    }
    Ok(())
}

fn put_prices(session: &mut Session) -> Day<()> {
    println!("\nPrices put, in the order in which they came");
    for (account, article, date, price) in [
        (1001, "FLOUR-25", 20250311, 1840),
        (1001, "FLOUR-25", 20250304, 1795),
        (1001, "SUGAR-50", 20250307, 3120),
        (1002, "FLOUR-25", 20250305, 1875),
        (1001, "FLOUR-25", 20250311, 1810),
        (1002, "SALT-10", 20250301, 460),
        (1009, "FLOUR-25", 20250311, 1825),
    ] {
        put_line(session, Line::new(account, article, date, price))?;
    }
    Ok(())
}

fn show_chain(session: &mut Session, whose: &str, chain: Chain, way: Way) -> Day<()> {
    let direction = if matches!(way, Way::Back) {
        "backward"
    } else {
        "forward"
    };
    println!("\n{whose}, chain of {} lines, {direction}", chain.count);
    for entry in session.walk(PRICES, way) {
        println!("{}", Line::from(entry?));
    }
    Ok(())
}

fn show_chains(session: &mut Session, number: u16, article: &str) -> Day<()> {
    for way in [Way::Forward, Way::Back] {
        let chain = find_account(session, number)?;
        show_chain(session, &format!("Account {number}"), chain, way)?;
    }
    let chain = find_article(session, article)??;
    show_chain(session, &format!("Article {article}"), chain, Way::Forward)
}

/// The price billed: the last line of the account's chain with the article.
fn price_for(session: &mut Session, number: u16, article: &str) -> Day<Line> {
    find_account(session, number)?;
    for entry in session.walk(PRICES, Way::Back) {
        let line = Line::from(entry?);
        if line.article == article {
            return Ok(line);
        }
    }
    Err(format!("account {number} has no price for {article}").into())
}

fn bill(session: &mut Session, number: u16, article: &str, quantity: u32) -> Day<u32> {
    let price = price_for(session, number, article)?.price;
    let amount = quantity * price;
    println!(
        "  {article:8}  {quantity:4} at {:>7}  {:>9}",
        money(price),
        money(amount)
    );
    Ok(amount)
}

/// Nothing was deleted yet, so of two records the one with the higher number
/// was put later.
fn show_second_price_billed(session: &mut Session, number: u16, article: &str) -> Day<()> {
    let billed = price_for(session, number, article)?;
    let behind = get_line(session, Read::Back)?;
    if behind.date != billed.date || behind.record > billed.record {
        return Err("the older of two prices of a day is billed".into());
    }
    println!("{billed}, put second that day: billed");
    println!("{behind}, put first that day");
    Ok(())
}

fn invoice(session: &mut Session, number: u16) -> Day<()> {
    let account = get_account(session, number)?;
    println!("\nInvoice for account {number}, {}", account.name);
    let mut total = 0;
    for (article, quantity) in [("FLOUR-25", 40), ("SUGAR-50", 12)] {
        total += bill(session, number, article, quantity)?;
    }
    println!("  {:27}{:>9}", "total", money(total));
    show_second_price_billed(session, number, "FLOUR-25")
}

fn correct(session: &mut Session, number: u16) -> Day<()> {
    println!("\nCorrections");
    let mut line = price_for(session, number, "SUGAR-50")?;
    line.price = 3090;
    session.update(PRICES, &line.words()?)?;
    line = get_line(session, Read::Current)?;
    println!("{line}, updated");

    line.date = 20250308;
    match session.update(PRICES, &line.words()?) {
        Err(Condition::FixedItem) => println!("{line}, refused, 41: delete it and put it again"),
        other => return Err(format!("changing a date was not refused: {other:?}").into()),
    }
    Ok(())
}

/// After a delete the cursor still knows the lines on both sides.
fn withdraw(session: &mut Session, number: u16) -> Day<()> {
    println!("\nA price withdrawn");
    price_for(session, number, "FLOUR-25")?;
    let withdrawn = get_line(session, Read::Back)?;
    session.delete(PRICES)?;
    println!("{withdrawn}, deleted");
    println!("{}, read on forward", get_line(session, Read::Forward)?);
    println!("{}, read on backward", get_line(session, Read::Back)?);
    put_line(session, Line::new(number, "SUGAR-50", 20250310, 3050))
}

fn delete_lines(session: &mut Session, number: u16) -> Day<()> {
    let chain = find_account(session, number)?;
    println!("  {} lines go first", chain.count);
    while let Some(entry) = session.next(PRICES, Way::Forward)? {
        session.delete(PRICES)?;
        println!("{}, deleted", Line::from(entry));
    }
    Ok(())
}

/// An account with lines is refused; its lines go first.
fn close_account(session: &mut Session, number: u16) -> Day<()> {
    get_account(session, number)?;
    println!("\nAccount {number} closes");
    match session.delete(ACCOUNTS) {
        Err(refusal @ Condition::HasLines) => {
            println!("  refused, {}: it still has lines", refusal.number());
            delete_lines(session, number)?;
            session.delete(ACCOUNTS)?;
        }
        other => other?,
    }
    println!("  account {number} deleted");
    Ok(())
}

/// An article goes from its automatic master with its last line.
fn show_article_gone(session: &mut Session, article: &str) -> Day<()> {
    match find_article(session, article)? {
        Err(gone @ Condition::NoRecord) => {
            println!("  {article} went with its last line: {}", gone.number());
            Ok(())
        }
        other => Err(format!("an article without lines is still there: {other:?}").into()),
    }
}

/// Serially, by record number: first back to the set's beginning.
fn show_accounts(session: &mut Session) -> Day<()> {
    println!("\nAccounts left");
    session.rewind(ACCOUNTS)?;
    for entry in session.walk(ACCOUNTS, Way::Next) {
        println!("{}", Account::from(entry?));
    }
    Ok(())
}

fn the_day() -> Day<()> {
    let root = root();
    let mut base = Base::make(&root)?;
    println!(
        "PRICES: root {} words, area {} words",
        root.words().len(),
        root.area_words()
    );
    let session = &mut base.session();
    open_accounts(session)?;
    put_prices(session)?;
    show_chains(session, 1001, "FLOUR-25")?;
    invoice(session, 1001)?;
    correct(session, 1001)?;
    withdraw(session, 1001)?;
    close_account(session, 1002)?;
    show_article_gone(session, "SALT-10")?;
    show_accounts(session)
}

fn main() -> ExitCode {
    match the_day() {
        Ok(()) => ExitCode::SUCCESS,
        Err(what) => {
            eprintln!("prices: {what}");
            ExitCode::FAILURE
        }
    }
}
