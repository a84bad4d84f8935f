//! The date of answers, which hyper keeps by thread.
use hyper::server::conn::Http;
use hyper::service::service_fn;
use hyper::{Body, Request, Response};
use std::convert::Infallible;
use std::future::Future;
use std::pin::Pin;
use std::sync::Arc;
use std::task::{Context, Wake};
use std::time::{SystemTime, UNIX_EPOCH};

struct Nobody;

impl Wake for Nobody {
    fn wake(self: Arc<Nobody>) {}
}

/// Has hyper make the date of this thread's answers. It panics if it has to make one before 1970,
/// but goes on with one that it has made if the clock goes back so far. To be called by each thread
/// that answers, before it does.
pub fn make_date() {
    if SystemTime::now() < UNIX_EPOCH {
        return;
    }
    // A connection on which nothing comes.
    let (stream, _far) = tokio::io::duplex(1);
    let service =
        service_fn(|_: Request<Body>| async { Ok::<_, Infallible>(Response::new(Body::empty())) });
    let mut connection = Http::new().http1_only(true).serve_connection(stream, service);
    let nobody = Arc::new(Nobody).into();
    let _ = Pin::new(&mut connection).poll(&mut Context::from_waker(&nobody));
}
