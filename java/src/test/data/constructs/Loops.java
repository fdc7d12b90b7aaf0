import java.io.*;
import java.util.*;

/** Loops and the jumps in them. */
class Loops {
  int n;
  static final boolean FOREVER = true;

  void whileOk(String k) throws IOException {
    while (n < 3) {
      InputStream in = new FileInputStream(k);
      in.close();
    }
  }

  void whileLeak(String k) throws IOException {
    while (n < 3) {
      InputStream in = new FileInputStream(k); // leak
      if (n == 1) {
        break;
      }
      in.close();
    }
  }

  void continueLeak(String[] all) throws IOException {
    for (String s : all) {
      InputStream in = new FileInputStream(s); // leak
      if (s.isEmpty()) {
        continue;
      }
      in.close();
    }
  }

  void continueOk(String[] all) throws IOException {
    for (String s : all) {
      InputStream in = new FileInputStream(s);
      if (s.isEmpty()) {
        in.close();
        continue;
      }
      in.close();
    }
  }

  void doLeak(String k) throws IOException {
    InputStream in = null;
    do {
      in = new FileInputStream(k); // leak
    } while (n++ < 2);
    in.close();
  }

  void doOk(String k) throws IOException {
    do {
      InputStream in = new FileInputStream(k);
      in.close();
    } while (n++ < 2);
  }

  void forOk(String k) throws IOException {
    InputStream in = new FileInputStream(k);
    for (int i = 0; i < 3; i++) {
      n += i;
    }
    in.close();
  }

  void forReadLeak(String k) throws IOException {
    InputStream in = new FileInputStream(k); // leak
    for (int c = in.read(); c >= 0; c = in.read()) {
      n++;
    }
    in.close();
  }

  void forInitLeak(String k) throws IOException {
    for (InputStream in = new FileInputStream(k); n < 3; n++) { // leak
      n++;
    }
  }

  int foreverOk(String k) throws IOException {
    InputStream in = new FileInputStream(k);
    while (true) {
      if (n++ > 3) {
        in.close();
        return n;
      }
    }
  }

  int foreverConstantOk(String k) throws IOException {
    InputStream in = new FileInputStream(k);
    while (FOREVER) {
      if (n++ > 3) {
        in.close();
        return n;
      }
    }
  }

  int forEverLeak(String k) throws IOException {
    InputStream in = new FileInputStream(k); // leak
    for (;;) {
      if (n++ > 3) {
        return n;
      }
    }
  }

  void labelOk(String k) throws IOException {
    InputStream in = new FileInputStream(k);
    outer:
    for (int i = 0; i < 3; i++) {
      for (;;) {
        if (n++ > i) {
          continue outer;
        }
        if (n > 5) {
          break outer;
        }
      }
    }
    in.close();
  }

  void labelledBreakLeak(String k) throws IOException {
    outer:
    for (int i = 0; i < 3; i++) {
      InputStream in = new FileInputStream(k); // leak
      for (;;) {
        if (n++ > i) {
          break outer;
        }
        if (n > 5) {
          break;
        }
      }
      in.close();
    }
  }

  void labelledContinueLeak(String k) throws IOException {
    outer:
    while (n < 9) {
      InputStream in = new FileInputStream(k); // leak
      while (true) {
        if (n++ > 2) {
          continue outer;
        }
        if (n > 5) {
          break;
        }
      }
      in.close();
    }
  }

  void labelledContinueOk(String k) throws IOException {
    outer:
    while (n < 9) {
      InputStream in = new FileInputStream(k);
      while (true) {
        if (n++ > 2) {
          in.close();
          continue outer;
        }
        if (n > 5) {
          break;
        }
      }
      in.close();
    }
  }

  void labelledBlockOk(String k) throws IOException {
    InputStream in = new FileInputStream(k);
    block: {
      if (n > 3) {
        break block;
      }
      n++;
    }
    in.close();
  }

  void labelledBlockLeak(String k) throws IOException {
    InputStream in = new FileInputStream(k); // leak
    block: {
      if (n > 3) {
        break block;
      }
      in.close();
    }
  }

  void jumpThroughFinallyOk(String k) throws IOException {
    outer:
    for (;;) {
      InputStream in = new FileInputStream(k);
      try {
        for (;;) {
          if (n++ > 3) {
            break outer;
          }
          if (n > 7) {
            continue outer;
          }
        }
      } finally {
        in.close();
      }
    }
  }

  void jumpPastCatchThrowableOk(String k) throws IOException {
    InputStream in = new FileInputStream(k);
    outer:
    for (;;) {
      for (;;) {
        try {
          if (n++ > 3) {
            in.close();
            in = null;
            break outer;
          }
        } catch (Throwable t) {
          n--;
        }
      }
    }
  }

  void jumpThroughResourcesOk(String k) throws IOException {
    outer:
    for (;;) {
      for (;;) {
        try (InputStream in = new FileInputStream(k)) {
          if (n++ > 3) {
            break outer;
          }
        }
      }
    }
  }

  void jumpThroughResourcesLeak(String k) throws IOException {
    InputStream other = new FileInputStream(k); // leak
    outer:
    for (;;) {
      for (;;) {
        try (Reader in = new StringReader(k); InputStream second = opened(k)) {
          if (n++ > 3) {
            break outer;
          }
        }
      }
    }
    other.close();
  }

  private static InputStream opened(String k) {
    try {
      return new FileInputStream(k);
    } catch (FileNotFoundException e) {
      return null;
    }
  }

  void eachOfOwnedLeak(java.nio.file.Path dir) throws IOException {
    for (java.nio.file.Path p : java.nio.file.Files.newDirectoryStream(dir)) { // leak
      n++;
    }
  }

  void eachElementOk(List<InputStream> all) throws IOException {
    for (InputStream in : all) {
      in.close();
    }
  }

  void eachNestedOk(List<String> all) throws IOException {
    for (String s : all) {
      try (InputStream in = new FileInputStream(s)) {
        n += in.read();
      }
    }
  }

  void whileReadOk(String k) throws IOException {
    try (BufferedReader r = new BufferedReader(new FileReader(k))) {
      String s;
      while ((s = r.readLine()) != null) {
        n += s.length();
      }
    }
  }

  void whileOpenLeak(String k) throws IOException {
    InputStream in;
    int c;
    while ((c = (in = new FileInputStream(k)).read()) != -1 && c > 3) { // leak
      in.close();
    }
  }
}
