/* Scripts: commands over one line or more, one after the other; and scripts of a line for each, which the library loads in one call. */
#include "client.h"

/* A command that was read: its statement, which is prepared if status is MMDB_DONE, and its bytes in the script. */
typedef struct Command {
    Statement *statement;
    uint8_t status;
    size_t place;
    const char *begin, *end;
    size_t line;            /* the number of its first line, from 1 */
} Command;

/* A script, and how far it was read. */
typedef struct Script {
    Connection *connection;
    const char *at, *end;
    size_t line;            /* the number of lines before at */
    bool is_over;
} Script;

static bool is_blank(char byte) { return byte == ' ' || byte == '\t' || byte == '\r' || byte == '\n'; }

/* Prepares the bytes of a command. Returns false with an exception. */
static bool command_prepare(Script *script, Command *command) {
    Connection *connection = script->connection;
    size_t length = (size_t)(command->end - command->begin);
    if (length > 0 && command->end[-1] == '\r') length--;
    Statement *statement = command->statement = statement_new(connection->state, command->begin, length);
    if (statement == NULL) return false;
    if (connection_enter(connection)) {
        command->status = statement_prepare(connection, statement);
        command->place = mmdb_place(&connection->db, (const uint8_t *)statement->line, statement->length, command->status);
        connection_leave(connection);
        return true;
    }
    statement_release(connection, statement);
    command->statement = NULL;
    return false;
}

/* Reads a line of the script as a command. There is one. Returns false with an exception. */
static bool read_line(Script *script, Command *command) {
    const char *feed = memchr(script->at, '\n', (size_t)(script->end - script->at));
    command->begin = script->at;
    command->end = feed != NULL ? feed : script->end;
    command->line = ++script->line;
    script->at = feed != NULL ? feed + 1 : script->end;
    script->is_over = feed == NULL;
    return command_prepare(script, command);
}

static bool is_empty(const Command *command) {
    return command->status == MMDB_DONE && command->statement->kind == MMDB_KIND_NOTHING;
}

/* Returns the number of blanks at the beginning of a command's line. */
static size_t leading_blanks(const Command *command) {
    size_t blanks = 0;
    while (blanks < command->statement->length && is_blank(command->statement->line[blanks])) blanks++;
    return blanks;
}

/* Returns whether reading two lines as one command got past the first word of the second one. */
static bool reads_on(const Command *first, const Command *next, const Command *both) {
    /* A command that can be read ends before a line that would make it too long. */
    if (both->status == MMDB_LINE_TOO_LONG) return first->status != MMDB_DONE;
    /* A blank in both stands for the line feed. */
    return both->status != MMDB_SYNTAX || both->place > first->statement->length + 1 + leading_blanks(next);
}

static void command_close(Script *script, Command *command) {
    if (command->statement != NULL) statement_release(script->connection, command->statement);
    command->statement = NULL;
}

/*
 * Appends the next line to a command if the command goes on there, and closes next then. No command goes on with a line that is a command
 * too. Returns false with an exception.
 */
static bool join(Script *script, Command *command, Command *next, bool *is_joined) {
    *is_joined = false;
    if (is_empty(command) || is_empty(next)) return true;
    if (command->status != MMDB_SYNTAX && next->status != MMDB_SYNTAX) return true;
    /* No further line makes it shorter, and each one would copy it again. */
    if (command->status == MMDB_LINE_TOO_LONG) return true;
    Command both = {.begin = command->begin, .end = next->end, .line = command->line};
    /* A byte that begins no token is found before any word is read, so the second line is cut where it stops by itself. */
    if (next->status == MMDB_SYNTAX && next->place > leading_blanks(next)) both.end = next->begin + next->place;
    if (!command_prepare(script, &both)) return false;
    *is_joined = reads_on(command, next, &both);
    command_close(script, &both);
    if (!*is_joined) return true;
    both.end = next->end;
    command_close(script, command);
    command_close(script, next);
    *command = both;
    return command_prepare(script, command);
}

/*
 * Reads the lines with which a command goes on, and then the line after it as next. next->statement is NULL if there is no such line.
 * Returns false with an exception.
 */
static bool read_rest(Script *script, Command *command, Command *next) {
    bool is_joined = true;
    while (is_joined && !script->is_over) {
        if (!read_line(script, next) || !join(script, command, next, &is_joined)) return false;
    }
    return true;
}

static void raise_command(const Script *script, const Command *command) {
    Refusal refusal = {
        .status = command->status,
        .place = command->place,
        .line = command->statement->line,
        .length = command->statement->length,
        .script_line = command->line,
    };
    raise_refusal(script->connection->state, &refusal);
}

/* Calls the trace callback with a command. Returns false with an exception. */
static bool trace(Connection *connection, const Statement *statement) {
    if (connection->trace_callback == NULL || connection->trace_callback == Py_None) return true;
    PyObject *line = PyUnicode_DecodeUTF8(statement->line, (Py_ssize_t)statement->length, "surrogateescape");
    bool is_traced = line != NULL && connection_trace(connection, line);
    Py_XDECREF(line);
    return is_traced;
}

/* Runs a prepared statement. One with holes is no command: executing its line says so. */
static uint8_t run_prepared(Connection *connection, const Statement *statement) {
    mmdb *db = &connection->db;
    uint8_t status = statement->parameters == 0 ? mmdb_run(db, statement->number, NULL, 0)
                                                : mmdb_execute(db, (const uint8_t *)statement->line, statement->length);
    if (status == MMDB_DONE) note_done(connection, statement);
    return status;
}

/* Runs a command. Returns false with an exception. */
static bool run_command(Script *script, Command *command) {
    Connection *connection = script->connection;
    if (is_empty(command)) return true;
    if (!trace(connection, command->statement)) return false;
    if (command->status == MMDB_DONE) {
        if (PyErr_CheckSignals() < 0 || !connection_enter(connection)) return false;
        PyThreadState *thread = PyEval_SaveThread();
        Statement *statement = command->statement;
        command->status = run_prepared(connection, statement);
        command->place = mmdb_place(&connection->db, (const uint8_t *)statement->line, statement->length, command->status);
        PyEval_RestoreThread(thread);
        connection_leave(connection);
    }
    if (command->status < LEAST_REFUSAL) return true;
    raise_command(script, command);
    return false;
}

static bool run_script(Script *script) {
    Command command;
    bool is_done = read_line(script, &command);
    while (is_done && command.statement != NULL) {
        Command next = {.statement = NULL};
        is_done = read_rest(script, &command, &next) && run_command(script, &command);
        command_close(script, &command);
        command = next;
    }
    command_close(script, &command);
    return is_done;
}

/* Opens the bytes of a script. Returns false with an exception. */
static bool open_script(const State *state, PyObject *string, Text *text) {
    if (!PyUnicode_Check(string)) {
        PyErr_SetString(PyExc_TypeError, "a script is a str");
        return false;
    }
    if (text_open(string, text)) return true;
    if (!PyErr_ExceptionMatches(PyExc_UnicodeEncodeError)) return false;
    PyErr_Clear();
    raise_words(state, PROGRAMMING_ERROR, "the script has a lone surrogate, which stands for no byte of UTF-8");
    return false;
}

bool cursor_run_script(Cursor *self, PyObject *string) {
    if (!cursor_check(self)) return false;
    cursor_forget(self);
    Connection *connection = (Connection *)Py_NewRef((PyObject *)self->connection);
    Text text;
    bool is_done = false;
    if (open_script(connection->state, string, &text)) {
        Script script = {.connection = connection, .at = text.bytes, .end = text.bytes + text.length};
        is_done = run_script(&script);
        text_close(&text);
        cursor_forget(self);
    }
    Py_DECREF((PyObject *)connection);
    return is_done;
}

/* A script that is loaded: where the next line begins, and what the library told. */
typedef struct Load {
    const char *at, *end;
    size_t lines;           /* the number of lines that were executed and not refused */
    Refusal refusal;
} Load;

/* Returns the length of the next line, without its line feed and carriage return, and moves behind it. */
static size_t take_line(Load *load) {
    const char *begin = load->at, *feed = memchr(begin, '\n', (size_t)(load->end - begin));
    size_t length = (size_t)((feed != NULL ? feed : load->end) - begin);
    load->at = feed != NULL ? feed + 1 : load->end;
    return length > 0 && begin[length - 1] == '\r' ? length - 1 : length;
}

/* Loads a script. The savepoints and the catalog follow its lines as they follow single lines. */
static void load_script(Connection *connection, Load *load) {
    Refusal *refusal = &load->refusal;
    refusal->status = mmdb_load(&connection->db, (const uint8_t *)load->at, (size_t)(load->end - load->at), &load->lines);
    for (size_t i = 0; i < load->lines; i++) {
        const char *line = load->at;
        savepoints_follow(&connection->savepoints, line, take_line(load));
    }
    connection->catalog_age += load->lines > 0;
    if (refusal->status < LEAST_REFUSAL) return;
    refusal->line = load->at;
    refusal->length = take_line(load);
    refusal->script_line = load->lines + 1;
    refusal->place = mmdb_place(&connection->db, (const uint8_t *)refusal->line, refusal->length, refusal->status);
}

PyObject *connection_load(PyObject *object, PyObject *string) {
    Connection *self = (Connection *)object;
    Text text;
    if (!connection_check(self) || !open_script(self->state, string, &text)) return NULL;
    Load load = {.at = text.bytes, .end = text.bytes + text.length};
    bool is_done = connection_trace(self, string) && connection_enter(self);
    if (is_done) {
        PyThreadState *thread = PyEval_SaveThread();
        load_script(self, &load);
        PyEval_RestoreThread(thread);
        connection_leave(self);
        is_done = load.refusal.status < LEAST_REFUSAL;
        if (!is_done) raise_refusal(self->state, &load.refusal);
    }
    text_close(&text);
    return is_done ? Py_NewRef(Py_None) : NULL;
}
