//! What the PASSporTs of a call say, and who signed them.
use super::Html;
use crate::judge::{Judged, Passport};

impl Html {
    /// A row for each PASSporT, in the order in which the call went; and how its certificates came.
    pub(super) fn passports(&mut self, judged: &Judged) -> &mut Html {
        if let Some(certificates) = &judged.certificates {
            self.markup("<p>Its certificates: ").say(certificates).markup(".</p>\n");
        }
        if let Some(spoilt) = &judged.spoilt {
            self.markup("<p class=\"bad\">Rule 15 is broken since ").say(spoilt).markup(".</p>\n");
        }
        if judged.about.passports.is_empty() {
            return self;
        }
        self.markup("<h3>What its PASSporTs say</h3>\n<table><tr><th class=\"n\">field</th>");
        self.markup("<th>type</th><th>from</th><th>to</th><th>attest</th><th>x5u</th>");
        self.markup("<th>signed by</th></tr>\n");
        for passport in &judged.about.passports {
            self.passport(passport);
        }
        self.markup(
            "</table>\n<p class=\"soft\">Whoever sent the call says so. If somebody stands ",
        );
        self.markup("as who signed, the signature is good, and so it is he who says it.</p>\n")
    }

    fn passport(&mut self, passport: &Passport) {
        let Passport { field, ppt, x5u, claimed, signer } = passport;
        self.markup("<tr><td class=\"n\">").say(field).markup("</td><td>");
        self.text(ppt.map_or("", |ppt| ppt.name())).markup("</td><td>");
        self.text(claimed.div.as_deref().unwrap_or(&claimed.orig)).markup("</td><td>");
        self.text(&claimed.dest.join(" ")).markup("</td><td>");
        self.text(claimed.attest.as_deref().unwrap_or_default()).markup("</td><td>");
        self.text(x5u).markup("</td><td>");
        if let Some(signer) = signer {
            self.text(&signer.codes.join(" ")).text(" ").text(&signer.subject);
        }
        self.markup("</td></tr>\n");
    }
}
