/** The plugin of the compiler, and the command of the same code. */
package rlc.front.plugin;
