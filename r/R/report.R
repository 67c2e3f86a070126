# Pages about decisions. The script report.py of Welungad's installation makes them, and asks the program itself. It is the one part
# of the package that needs python3.

graph_report <- function(x, file, p = NULL, alpha = 0.025, title = NULL, protocol = NULL, data_cut = NULL, author = NULL) {
  x <- decided(x, p, alpha, missing(alpha))
  file <- one_text(file, "file")
  facts <- c(option_of("title", if (is.null(title)) format(x) else title), option_of("protocol", protocol), option_of("data_cut", data_cut),
    option_of("author", author))
  room <- tempfile("welungad-")
  dir.create(room)
  on.exit(unlink(room, recursive = TRUE))
  words <- c(write_decided(x, room), facts, paste0("--out=", path.expand(file)))
  run_script("report.py", words)
  invisible(normalizePath(file))
}

# The word of the script's call that gives a text of the page; none if it is left out. The bytes of the text are handed over as they are, also
# in a locale that is not UTF-8.
option_of <- function(name, text) {
  if (is.null(text)) return(NULL)
  text <- enc2utf8(one_text(text, name))
  Encoding(text) <- "unknown"
  paste0("--", sub("_", "-", name), "=", text)
}

# The decision that a page is about: a result, or that of a graph on p-values.
decided <- function(x, p, alpha, is_default) {
  if (is_any_graph(x)) {
    if (is.null(p)) stop_at("p", "a graph is reported with p-values: give them, or a result of graph_test or graph_stages")
    return(graph_test(x, p, alpha))
  }
  if (!inherits(x, c("welungad_test", "welungad_stages"))) {
    stop_at("x", "a result of graph_test or graph_stages is needed, or a graph and p-values")
  }
  if (!is.null(p) || !is_default) stop_at(if (is.null(p)) "alpha" else "p", "a result has its own, and is reported as it is")
  check_result(x)
  x
}

one_text <- function(x, what) {
  if (!is.character(x) || length(x) != 1 || is.na(x) || !nzchar(x)) stop_at(what, "one text is needed")
  x
}

# Writes what the script reads into a folder: the case, the labels, each ended by a byte 0, and the report. Returns the words that
# name them.
write_decided <- function(x, room) {
  place <- function(name) file.path(room, name)
  write_whole(charToRaw(x$case), place("trial.txt"))
  write_whole(bytes_of_labels(x$graph$labels), place("labels"))
  write_whole(charToRaw(paste0(x$report, "\n", collapse = "")), place("report"))
  c(place("trial.txt"), paste0("--labels=", place("labels")), paste0("--report=", place("report")),
    if (inherits(x, "welungad_test") && x$priority != "first") paste0("--priority=", x$priority))
}

# Runs a script of Welungad by python3, with the program. What it refuses is an error with its line.
run_script <- function(name, words) {
  program <- program_path()
  if (!nzchar(program)) stop("a page needs the program welungad: ", how_to_find_program, call. = FALSE)
  script <- script_path(name, program)
  python <- python_path()
  said <- tempfile("welungad-")
  on.exit(unlink(said))
  status <- start_python(python, c(script, words, paste0("--program=", program)), said)
  if (status == 0L) return(invisible())
  lines <- readLines(said, warn = FALSE, encoding = "UTF-8")
  cause <- if (length(lines)) sub(paste0("^", name, ": "), "", lines[length(lines)]) else paste("it ends with", status)
  stop("there is no page: ", cause, call. = FALSE)
}

# Runs python3 without the user's own settings, so that no other module is taken for a part of the script, and returns its status.
start_python <- function(python, words, said) {
  run_words(c(python, "-B", "-E", "-s", words), stderr = said)
}

# The folders in which the scripts may be: of the installation, or of the checkout, that has the program.
script_places <- function(program) {
  folder <- dirname(normalizePath(program))
  above <- dirname(folder)
  c(file.path(above, "share", "welungad", "tools"), file.path(dirname(dirname(above)), "tools"), file.path(folder, "tools"))
}

script_path <- function(name, program) {
  places <- file.path(script_places(program), name)
  found <- places[file.exists(places)]
  if (length(found)) return(found[1])
  stop("a page needs the script ", name, " of Welungad, which is not beside the program ", program, ": it is none of ",
    paste(places, collapse = ", "), call. = FALSE)
}

# The interpreter that the environment variable WELUNGAD_PYTHON names, else python3 of the path.
python_path <- function() {
  named <- Sys.getenv("WELUNGAD_PYTHON")
  found <- unname(Sys.which(if (nzchar(named)) named else "python3"))
  cure <- "let the environment variable WELUNGAD_PYTHON name it, or put it on the path"
  if (!nzchar(found)) stop("a page needs python3, 3.9 or later, which is not found: ", cure, call. = FALSE)
  is_late <- start_python(found, c("-c", "import sys; sys.exit(sys.version_info < (3, 9))"), "/dev/null") == 0
  if (!is_late) stop("a page needs python3, 3.9 or later, and ", found, " is not: ", cure, call. = FALSE)
  found
}
