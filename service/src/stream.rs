//! A connection with time limits. It is closed if nothing happens for a while, if a request does not end, or if the client does not
//! read what is written. (The limit for the head of a request is here because that of Debian's hyper 0.14.19 has no effect.)

use std::future::Future;
use std::io;
use std::pin::Pin;
use std::sync::atomic::{AtomicU64, Ordering};
use std::sync::Arc;
use std::task::{Context, Poll};
use std::time::Duration;

use tokio::io::{AsyncRead, AsyncWrite, ReadBuf};
use tokio::net::TcpStream;
use tokio::time::{sleep, Instant, Sleep};

/// The longest time without reading or writing.
const IDLE: Duration = Duration::from_secs(30);
/// The longest time with something to write and no room for it.
const SLOW: Duration = Duration::from_secs(5);

/// From a request's first byte to the end of its head.
const HEAD: Duration = Duration::from_secs(10);

pub struct Patient {
    stream: TcpStream,
    idle: Pin<Box<Sleep>>,
    slow: Option<Pin<Box<Sleep>>>,
    /// How many heads have arrived, by the count of the answering side, and the count at which `head` began.
    heads: Arc<AtomicU64>,
    seen: u64,
    head: Option<Pin<Box<Sleep>>>,
}

impl Patient {
    pub fn new(stream: TcpStream, heads: Arc<AtomicU64>) -> Patient {
        Patient { stream, idle: Box::pin(sleep(IDLE)), slow: None, heads, seen: 0, head: None }
    }

    /// Whether the reading of a head takes too long.
    fn is_endless(&mut self, cx: &mut Context<'_>) -> bool {
        let heads = self.heads.load(Ordering::Acquire);
        if heads != self.seen {
            (self.seen, self.head) = (heads, None);
        }
        self.head.as_mut().is_some_and(|head| head.as_mut().poll(cx).is_ready())
    }

    fn moved(&mut self) {
        self.idle.as_mut().reset(Instant::now() + IDLE);
    }

    fn wrote(&mut self, cx: &mut Context<'_>, done: Poll<io::Result<usize>>) -> Poll<io::Result<usize>> {
        if done.is_ready() {
            self.slow = None;
            self.moved();
            return done;
        }
        let slow = self.slow.get_or_insert_with(|| Box::pin(sleep(SLOW)));
        match slow.as_mut().poll(cx) {
            Poll::Ready(()) => Poll::Ready(Err(io::ErrorKind::TimedOut.into())),
            Poll::Pending => Poll::Pending,
        }
    }
}

impl AsyncRead for Patient {
    fn poll_read(mut self: Pin<&mut Self>, cx: &mut Context<'_>, buf: &mut ReadBuf<'_>) -> Poll<io::Result<()>> {
        if self.is_endless(cx) {
            return Poll::Ready(Err(io::ErrorKind::TimedOut.into()));
        }
        let done = Pin::new(&mut self.stream).poll_read(cx, buf);
        if done.is_ready() {
            self.head.get_or_insert_with(|| Box::pin(sleep(HEAD)));
            self.moved();
            return done;
        }
        match self.idle.as_mut().poll(cx) {
            Poll::Ready(()) => Poll::Ready(Err(io::ErrorKind::TimedOut.into())),
            Poll::Pending => Poll::Pending,
        }
    }
}

impl AsyncWrite for Patient {
    fn poll_write(mut self: Pin<&mut Self>, cx: &mut Context<'_>, bytes: &[u8]) -> Poll<io::Result<usize>> {
        let done = Pin::new(&mut self.stream).poll_write(cx, bytes);
        self.wrote(cx, done)
    }

    fn poll_write_vectored(mut self: Pin<&mut Self>, cx: &mut Context<'_>, bytes: &[io::IoSlice<'_>]) -> Poll<io::Result<usize>> {
        let done = Pin::new(&mut self.stream).poll_write_vectored(cx, bytes);
        self.wrote(cx, done)
    }

    fn is_write_vectored(&self) -> bool {
        self.stream.is_write_vectored()
    }

    fn poll_flush(mut self: Pin<&mut Self>, cx: &mut Context<'_>) -> Poll<io::Result<()>> {
        Pin::new(&mut self.stream).poll_flush(cx)
    }

    fn poll_shutdown(mut self: Pin<&mut Self>, cx: &mut Context<'_>) -> Poll<io::Result<()>> {
        Pin::new(&mut self.stream).poll_shutdown(cx)
    }
}
