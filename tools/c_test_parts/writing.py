"""Writes the file of C: functions, flags, a function for each lane, and the `main` that starts them."""
from .bodies import Body, Functions, Refused
from .names import has_more, is_free, literal, names_of, quoted, type_of
from .programs import groups_of

HEAD = """/* A test of {actions} on {lanes}, each of them a thread. tools/c_test wrote it; docs/STATIC.md tells what it is.

     cc -std=c11 -pthread -Wall -Wextra -Werror FILE.c

   It prints a trace on standard output. The functions that bodies call stand first: with -DOWN_FUNCTIONS they are defined elsewhere,
   else each prints its arguments on standard error. */
#include <pthread.h>
#include <sched.h>
#include <stdatomic.h>
#include <stdbool.h>
#include <stdint.h>
#include <stdio.h>
#include <stdlib.h>
"""
LINES = """
/* One line is printed at a time. */
static pthread_mutex_t lines = PTHREAD_MUTEX_INITIALIZER;

static void print_line(const char *line)
{
  pthread_mutex_lock(&lines);
  puts(line);
  fflush(stdout);
  pthread_mutex_unlock(&lines);
}
"""
JUDGE = """
/* An answer that its function can't give ends the test. */
static void judge_answer(long long answer, long long least, long long greatest)
{
  if (answer < least || answer > greatest) {
    fprintf(stderr, "an answer of %lld, which is outside %lld to %lld\\n", answer, least, greatest);
    exit(EXIT_FAILURE);
  }
}
"""
FLAGS = """
static void tell(atomic_bool *ended)
{
  atomic_store_explicit(ended, true, memory_order_release);
}

static void await(atomic_bool *ended)
{
  while (!atomic_load_explicit(ended, memory_order_acquire))
    sched_yield();
}
"""
GROUPS = """
/* Actions that start together: their lanes meet, and the last one prints the line. */
struct group {
  int members, here;
  const char *line;
};

static pthread_cond_t started = PTHREAD_COND_INITIALIZER;

static void start_together(struct group *group)
{
  pthread_mutex_lock(&lines);
  group->here += 1;
  if (group->here == group->members) {
    puts(group->line);
    fflush(stdout);
    pthread_cond_broadcast(&started);
  }
  while (group->here < group->members)
    pthread_cond_wait(&started, &lines);
  pthread_mutex_unlock(&lines);
}
"""
MAIN = """
int main(void)
{{
  static void *(*const lanes[])(void *) = {{{lanes}}};
  pthread_t threads[{count}];
  for (size_t line = 0; line < sizeof header / sizeof *header; line += 1)
    print_line(header[line]);
  for (int lane = 0; lane < {count}; lane += 1)
    if (pthread_create(&threads[lane], NULL, lanes[lane], NULL) != 0) {{
      fprintf(stderr, "lane %d can't be started\\n", lane);
      exit(EXIT_FAILURE);
    }}
  for (int lane = 0; lane < {count}; lane += 1)
    pthread_join(threads[lane], NULL);
  print_line({done});
  return ferror(stdout) ? EXIT_FAILURE : EXIT_SUCCESS;
}}
"""


class Writer:
    """Writes the test of programs and a model."""

    def __init__(self, programs, model):
        self.programs, self.trace = programs, programs.trace
        functions, self.bodies = Functions(model), {}
        for number, action in sorted(self.trace.actions.items()):
            try:
                self.bodies[number] = Body(model, self.trace, functions, action).run()
            except Refused as refused:
                raise Refused(f"{refused.place}: the body of action {number} {refused}") from None
        self.names = names_of(list(functions.known.values()))
        self.groups = groups_of(programs, model)
        self.lanes = programs.actions_of("run")

    def text(self):
        count, lanes = len(self.trace.actions), len(self.programs.lanes)
        head = HEAD.format(actions=counted(count, "action"), lanes=counted(lanes, "lane"))
        parts = [head, *self.functions(), self.header(), LINES, *self.judging(), *self.flags(), *self.meeting()]
        parts += [self.body(number) for number, calls in self.bodies.items() if calls]
        parts += [self.lane(number, lane) for number, lane in enumerate(self.programs.lanes)]
        names = ", ".join(f"lane_{lane}" for lane in range(lanes))
        return "".join([*parts, MAIN.format(lanes=names, count=lanes, done=quoted(f"done {count}"))])

    # ---- functions

    def prototype(self, function):
        given = [f"{type_of(kind, span)} {parameter(name)}" for name, kind, span in function.parameters]
        answer = type_of(*function.answer) if function.answer else "void"
        return f"{answer} {self.names[function]}({', '.join(given) or 'void'})"

    def functions(self):
        """The declarations of the functions that are called, and definitions that print."""
        if not self.names:
            return
        yield "\n" + "".join(f"{self.prototype(function)};\n" for function in self.names)
        yield "\n#ifndef OWN_FUNCTIONS\n" + "\n".join(map(self.printing, self.names)) + "#endif\n"

    def printing(self, function):
        form = quoted(self.names[function] + " %lld" * len(function.parameters))[:-1] + '\\n"'
        values = "".join(f", (long long){parameter(name)}" for name, _, _ in function.parameters)
        lines = [self.prototype(function), "{", f"  fprintf(stderr, {form}{values});"]
        lines += [f"  return {literal(function.answer[0], 0)};"] if function.answer else []
        return "\n".join([*lines, "}"]) + "\n"

    def judging(self):
        if any(function.answer and has_more(*function.answer) for calls in self.bodies.values() for function, _ in calls):
            yield JUDGE

    def body(self, number):
        action = self.trace.actions[number]
        calls = [f"  {self.call(function, values)};\n" for function, values in self.bodies[number]]
        return f"\n/* {action.type} in {action.instance} */\nstatic void body_{number}(void)\n{{\n{''.join(calls)}}}\n"

    def call(self, function, values):
        given = [literal(kind, value) for value, (_, kind, _) in zip(values, function.parameters)]
        called = f"{self.names[function]}({', '.join(given)})"
        if function.answer and has_more(*function.answer):
            return f"judge_answer({called}, {function.answer[1][0]}, {function.answer[1][1]})"
        return f"(void){called}" if function.answer else called

    # ---- lanes

    def header(self):
        lines = "".join(f"  {quoted(line)},\n" for line in self.programs.header)
        return f"\nstatic const char *const header[] = {{\n{lines}}};\n"

    def flags(self):
        """A flag for each action of which a lane tells."""
        told = sorted(self.programs.actions_of("signal"))
        if not told:
            return
        yield "\n/* Whether each action has ended that another lane awaits. */\n"
        yield "".join(f"static atomic_bool ended_{number};\n" for number in told)
        helpers = FLAGS.strip("\n").split("\n\n")
        words = ["signal", "await"]
        yield "".join(f"\n{helper}\n" for word, helper in zip(words, helpers) if self.programs.actions_of(word))

    def meeting(self):
        """What the lanes of each group share."""
        groups = {members[0]: members for members in self.groups.values() if len(members) > 1}
        if not groups:
            return
        yield GROUPS + "\n"
        for first, members in sorted(groups.items()):
            yield f"static struct group group_{first} = {{{len(members)}, 0, {quoted(self.start(members))}}};\n"

    def start(self, members):
        return "start " + " ".join(f"{member}:{self.lanes[member]}" for member in members)

    def lane(self, number, lane):
        lines = [line for word, action in lane for line in self.instruction(word, action)]
        return f"\nstatic void *lane_{number}(void *nothing)\n{{\n" + "".join(f"  {line}\n" for line in lines) + "  return nothing;\n}\n"

    def instruction(self, word, action):
        if word != "run":
            yield f"{'tell' if word == 'signal' else 'await'}(&ended_{action});"
            return
        members = self.groups[action]
        yield f"start_together(&group_{members[0]});" if len(members) > 1 else f"print_line({quoted(self.start(members))});"
        if self.bodies[action]:
            yield f"body_{action}();"
        yield f"print_line({quoted(f'end {action}')});"


def counted(count, what):
    return f"{count} {what}" + ("" if count == 1 else "s")


def parameter(name):
    return name if is_free(name) else f"{name}_value"


def write(programs, model):
    """The text of the file."""
    return Writer(programs, model).text()
