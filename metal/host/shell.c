/* A shell on the console, where the loader's first word is `shell`: each line is a command of the program, which runs in a thread. Its input is a plan that
   is in the image, `< NAME`, or else is typed, up to a control-D. `step NAME` runs a plan again at each key, by a schedule that grows. */
#include "host.h"

extern const struct plan { const char *name; size start, end; } plans[], plans_end[]; /* build.py puts them into the image */
enum { MOST_LETTERS = 1000, CONTROL_D = 4 };

/* Runs the program with these words in a thread, which ends where the program does. Returns its status, and forgets what it left of the heap. */
static size command(const char *words, const struct plan *plan) {
  size thread, none = 0;
  void *status;
  set_words(words);
  input = plan ? (struct region){plan->start, plan->end} : (struct region){0, 0};
  is_echoed = !plan;
  if (pthread_create(&thread, &none, run_program, 0)) ends("host: too little memory", NO_ROOM);
  pthread_join(thread, &status);
  is_echoed = input.end = 0;
  begin_heap();
  return (size)status;
}

/* The plan of a name, with or without its .toml; or 0, which is told. */
static const struct plan *named(char *name) {
  size length = 0;
  while (*name == ' ') name++;
  while (name[length] && name[length] != ' ') length++;
  name[length] = 0;
  for (const struct plan *it = plans; length > 0 && it < plans_end; it++)
    if (begins_with(it->name, name) && (!it->name[length] || is_same(it->name + length, ".toml"))) return it;
  say(1, "there is no such plan; ls lists them\n");
  return 0;
}

/* Reads a line, and shows it as it grows. */
static void ask(char *line) {
  size at = 0;
  for (byte one = 0; one != '\n';) {
    one = ask_key();
    if (one == '\b' && at) at--, say(1, "\b \b");
    if (one < ' ' || at == MOST_LETTERS) continue;
    write(1, &one, 1);
    line[at++] = one;
  }
  say(1, "\n");
  line[at] = 0;
}

/* Each digit, or letter from a to f, is one step more, of that CPU; a backspace takes one away, and q ends. */
static void step(const struct plan *plan) {
  static char line[4 * MOST_LETTERS] = "run --schedule=";
  const size first = 15;
  size at = first;
  for (byte one = 0; one != 'q' && one != CONTROL_D; one = ask_key()) {
    unsigned cpu = one >= '0' && one <= '9' ? one - '0' : one >= 'a' && one <= 'f' ? one - 'a' + 10 : 16;
    if (one == '\b')
      while (at > first && line[--at] != ',');
    else if (cpu < 16 && at + 4 < sizeof line) {
      if (at > first) line[at++] = ',';
      if (cpu > 9) line[at++] = '1';
      line[at++] = '0' + cpu % 10;
    } else if (one)
      continue;
    line[at] = 0;
    say(1, "\n\n");
    say(1, line);
    say(1, "\n");
    command(line, plan);
    say(1, "0 to 9, a to f: a step of that CPU. Backspace: one less. q: the end.\n");
  }
}

static void obey(char *line) {
  char *from = line;
  while (*from && *from != '<') from++;
  int is_named = *from == '<', steps = begins_with(line, "step ");
  if (is_named) *from++ = 0;
  const struct plan *plan = is_named ? named(from) : steps ? named(line + 5) : 0;
  if ((is_named || steps) && !plan) return;
  if (steps) return step(plan);
  say_number("status ", command(line, plan), 10);
  say(2, "\n");
}

void *shell(void *none) {
  static char line[MOST_LETTERS + 1];
  say(1, "The verified thread tower. help lists the commands.\n");
  for (;;) {
    say(1, "tower> ");
    ask(line);
    if (is_same(line, "help"))
      say(1, "run --schedule 0*21 < one-send   a command of mctower, on a plan; without < its input is typed, up to control-D\n"
             "step one-send                    a plan, by a schedule that grows by a key\n"
             "ls                               the plans\n"
             "--help, run --help               mctower's own help\n");
    else if (is_same(line, "ls"))
      for (const struct plan *it = plans; it < plans_end; it++) say(1, it->name), say(1, "\n");
    else if (line[0])
      obey(line);
  }
}
