//! What is written of the calls: the report, JSON, CSV, counts and a picture of them.

use crate::judge::About;
use crate::sink::Sink;
use crate::summary::Summary;
use crate::verdict::Verdict;
use crate::Fault;
use serde::Serialize;

/// A call with its verdict, in the columns of JSON and CSV (docs/FORMATS.md, "Report in JSON").
#[derive(Debug, Serialize)]
pub(crate) struct Row<'a> {
    pub call: u64,
    pub moment: u64,
    pub call_id: &'a str,
    pub from: &'a str,
    pub to: &'a str,
    pub caller: &'a str,
    pub called: &'a str,
    pub attestation: &'a str,
    pub origid: &'a str,
    pub x5u: &'a str,
    pub signer: &'a str,
    pub named: &'a str,
    pub answer: &'a str,
    pub response: Option<u32>,
    pub phrase: &'a str,
    pub rule: Option<u32>,
    pub place: Option<String>,
    pub verstat: &'a str,
    pub reason: String,
}

impl<'a> Row<'a> {
    /// The row of a call. A certificate's holder is the signer if the signatures are good, and is
    /// named by the message otherwise.
    pub fn of(call: u64, moment: u64, about: &'a About, verdict: &Verdict) -> Row<'a> {
        let (x5u, codes) = about.signer(verdict.field());
        let (signer, named) = if verdict.is_signed() { (codes, "") } else { ("", codes) };
        Row {
            call,
            moment,
            call_id: &about.call_id,
            from: &about.from,
            to: &about.to,
            caller: &about.claims.caller,
            called: &about.claims.called,
            attestation: &about.claims.attestation,
            origid: &about.claims.origid,
            x5u,
            signer,
            named,
            answer: verdict.answer().word(),
            response: verdict.response(),
            phrase: verdict.phrase(),
            rule: verdict.rule(),
            place: verdict.place(),
            verstat: verdict.verstat(),
            reason: verdict.reason(),
        }
    }
}

/// All that is written of a run.
#[derive(Default)]
pub(crate) struct Outputs {
    pub report: Option<Sink>,
    /// The same once more, for a check.
    pub copy: Option<Sink>,
    pub json: Option<Sink>,
    pub csv: Option<csv::Writer<Sink>>,
    pub words: Option<Sink>,
    pub counts: Option<Sink>,
    pub picture: Option<Sink>,
    /// The chain map by which the calls were judged.
    pub chains: Option<Sink>,
    /// The code table, likewise.
    pub table: Option<Sink>,
    pub summary: Summary,
    /// Room for a line of JSON.
    pub line: Vec<u8>,
}

impl Outputs {
    /// Whether who called whom and who signed has to be told.
    pub fn tells(&self) -> bool {
        self.json.is_some() || self.csv.is_some() || self.words.is_some() || self.counts()
    }

    fn counts(&self) -> bool {
        self.counts.is_some() || self.picture.is_some()
    }

    /// Writes a call.
    pub fn call(
        &mut self,
        call: u64,
        moment: u64,
        about: Option<&About>,
        verdict: &Verdict,
    ) -> Result<(), Fault> {
        for report in self.report.iter_mut().chain(&mut self.copy) {
            report.put(|mut out| verdict.write(call, &mut out))?;
        }
        let Some(about) = about else { return Ok(()) };
        let row = Row::of(call, moment, about, verdict);
        if let Some(json) = &mut self.json {
            self.line.clear();
            json.put(|out| {
                serde_json::to_writer(&mut self.line, &row)?;
                self.line.push(b'\n');
                out.write_all(&self.line)
            })?;
        }
        if let Some(csv) = &mut self.csv {
            csv.serialize(&row).map_err(|error| Fault::Write("CSV".into(), error.to_string()))?;
        }
        if let Some(words) = &mut self.words {
            words.put(|mut out| {
                verdict.write(call, &mut out)?;
                out.write_all(crate::telling::in_words(&row, verdict).as_bytes())
            })?;
        }
        if self.counts() {
            self.summary.add(&row, verdict);
        }
        Ok(())
    }

    /// Writes text into the report and its copy alone.
    pub fn put_in_report(&mut self, text: &[u8]) -> Result<(), Fault> {
        let mut reports = self.report.iter_mut().chain(&mut self.copy);
        reports.try_for_each(|report| report.put(|out| out.write_all(text)))
    }

    /// Ends a run whose log is whole: counts and picture are written, and all files get their
    /// names.
    pub fn commit(self, title: &str) -> Result<(), Fault> {
        let Outputs { report, json, csv, words, counts, picture, chains, table, summary, .. } =
            self;
        for sink in [report, json, words, chains, table].into_iter().flatten() {
            sink.commit()?;
        }
        if let Some(csv) = csv {
            let sink = csv.into_inner().map_err(|error| Fault::write("CSV", error.error()))?;
            sink.commit()?;
        }
        if let Some(mut counts) = counts {
            counts.put(|out| out.write_all(summary.table(title).as_bytes()))?;
            counts.commit()?;
        }
        if let Some(mut picture) = picture {
            let drawn = crate::picture::of(&summary, title)?;
            picture.put(|out| out.write_all(drawn.as_bytes()))?;
            picture.commit()?;
        }
        Ok(())
    }

    /// Ends a run that came to a fault: what the standard output has got of the report and of JSON
    /// stands, with a line of the fault after it, and no file gets its name. Whether the fault is
    /// said there.
    pub fn fail(self, fault: &Fault) -> Result<bool, Fault> {
        let mut is_said = false;
        if let Some(mut report) = self.report.filter(Sink::is_stdout) {
            if fault.is_of_a_report() {
                report.put(|out| writeln!(out, "{fault}"))?;
                is_said = true;
            }
            report.commit()?;
        }
        if let Some(mut json) = self.json.filter(Sink::is_stdout) {
            let line = serde_json::json!({ "line": fault.to_string() });
            json.put(|out| writeln!(out, "{line}"))?;
            json.commit()?;
        }
        Ok(is_said)
    }
}
