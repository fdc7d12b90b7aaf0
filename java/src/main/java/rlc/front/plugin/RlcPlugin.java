package rlc.front.plugin;

import com.sun.source.util.JavacTask;
import com.sun.source.util.Plugin;

/**
 * The plugin of the compiler: {@code -Xplugin:Rlc}, and behind it the options of {@link Options}.
 */
public final class RlcPlugin implements Plugin {

  @Override
  public String getName() {
    return "Rlc";
  }

  @Override
  public void init(JavacTask task, String... words) {
    task.addTaskListener(new Session(task, Options.of(words)));
  }
}
