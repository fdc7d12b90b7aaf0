package rlc.front.plugin;

/** Says on a terminal that a run goes on, where it takes more than two seconds. */
final class Progress implements AutoCloseable {
  private static final long WAIT_MILLISECONDS = 2000;

  private final Thread thread;

  Progress(int bodies) {
    thread = new Thread(() -> run(bodies), "rlc progress");
    thread.setDaemon(true);
    if (System.console() != null) {
      thread.start();
    }
  }

  private static void run(int bodies) {
    long start = System.nanoTime();
    try {
      while (true) {
        Thread.sleep(WAIT_MILLISECONDS);
        long seconds = (System.nanoTime() - start) / 1_000_000_000L;
        System.err.print("\rrlc: " + bodies + " bodies, " + seconds + " seconds");
      }
    } catch (InterruptedException e) {
      System.err.print("\r\u001b[K");
    }
  }

  @Override
  public void close() {
    thread.interrupt();
    try {
      thread.join(1000);
    } catch (InterruptedException e) {
      Thread.currentThread().interrupt();
    }
  }
}
