/**
 * The project as the compiler sees it: its trees and symbols, places in its sources, and why a body
 * is not checked.
 */
package rlc.front.project;
