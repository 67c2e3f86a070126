# The qualification of an installation, by the script qualify.py that lies beside the program. It compares the installed files, the program,
# and the answers of this package by each of its ways, with what they have to be, and writes a report.

welungad_qualify <- function(folder = ".") {
  folder <- one_text(folder, "folder")
  program <- program_path()
  if (!nzchar(program)) stop("a qualification needs the program welungad: ", how_to_find_program, call. = FALSE)
  script <- script_path("qualify.py", program)
  python <- python_path()
  room <- tempfile("welungad-")
  dir.create(room)
  on.exit(unlink(room, recursive = TRUE))
  said <- file.path(room, "said")
  qualify <- function(...) run_words(c(python, "-B", "-E", "-s", script, ...), stdout = said, stderr = file.path(room, "errors"))
  words_of_doors <- character()
  for (way in welungad_ways()) {
    answers <- file.path(room, way)
    if (qualify("--calls", answers) != 0) stop("the script ", script, " makes no calls: ", last_line(file.path(room, "errors")), call. = FALSE)
    answer_calls(answers, way)
    words_of_doors <- c(words_of_doors, paste0("--door=R, by the ", way, "=", answers))
  }
  status <- qualify(paste0("--out=", path.expand(folder)), words_of_doors)
  lines <- readLines(said, warn = FALSE, encoding = "UTF-8")
  if (!length(lines)) stop("there is no report: ", last_line(file.path(room, "errors")), call. = FALSE)
  shown <- lines[!startsWith(lines, "passed")]
  cat(shown, sep = "\n")
  if (status != 0) stop("the qualification failed: see ", file.path(folder, "qualification.txt"), call. = FALSE)
  invisible(normalizePath(file.path(folder, c("qualification.txt", "qualification.html"))))
}

# Answers the calls in a folder by one way, each by its status and its text. A study keeps a file, which only the program opens.
answer_calls <- function(folder, way) {
  before <- options(welungad.way = way)
  on.exit(options(before))
  for (number in seq_along(list.files(folder, "[.]words$"))) {
    place <- function(end) file.path(folder, paste0(number, ".", end))
    words <- readLines(place("words"), encoding = "UTF-8")
    if (words[1] == "study") next
    proof <- if (file.exists(place("proof"))) bytes_of_file(place("proof")) else raw()
    answer <- welungad_run(words, bytes_of_file(place("case")), proof)
    writeLines(as.character(answer$status), place("status"))
    writeBin(charToRaw(answer$text), place("text"))
  }
  writeLines(versions_of_r(way), file.path(folder, "about"))
}

bytes_of_file <- function(path) readBin(path, "raw", file.size(path))

last_line <- function(path) {
  lines <- if (file.exists(path)) readLines(path, warn = FALSE) else character()
  if (length(lines)) lines[length(lines)] else "it says nothing"
}

# What the report says of this R: its release, this package, and the packages that it uses.
versions_of_r <- function(way) {
  packages <- c("welungad", "gmp", intersect("Matrix", loadedNamespaces()))
  releases <- vapply(packages, function(name) paste(name, utils::packageVersion(name)), "")
  paste0(R.version.string, "; ", paste(releases, collapse = ", "), "; in ", system.file(package = "welungad"),
    if (way == "program") paste0("; the program ", program_path()))
}
