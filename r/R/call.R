# The two ways to the proved call: its C library, by the shim in src/, and the program as a process.

# Which ways there are: "library" if the package was installed with the C library, "program" if the program is found.
welungad_ways <- function() c(if (has_library()) "library", if (nzchar(program_path())) "program")

# Which way the calls take: the option welungad.way if it is set, else the library, else the program; "" if there is none.
welungad_way <- function() {
  wish <- getOption("welungad.way")
  if (is.null(wish)) return(if (has_library()) "library" else if (nzchar(program_path())) "program" else "")
  if (!is.character(wish) || length(wish) != 1 || !wish %in% c("library", "program")) {
    stop_at("the option welungad.way", "\"library\" or \"program\" is needed")
  }
  is_found <- if (wish == "library") has_library() else nzchar(program_path())
  if (is_found) wish else ""
}

# Whether there is a way to the proved call.
welungad_found <- function() nzchar(welungad_way())

has_library <- function() .Call(C_welungad_interface) > 0L

# Whether the library reads doubles and decides many rows; one of an earlier release does not.
has_numbers <- function() .Call(C_welungad_has_numbers)

# The program that the environment variable WELUNGAD names, else that of the path, else "".
program_path <- function() {
  named <- Sys.getenv("WELUNGAD")
  if (nzchar(named)) return(if (file.access(named, 1) == 0 && !dir.exists(named)) normalizePath(named) else "")
  unname(Sys.which("welungad"))
}

welungad_run <- function(words, case = "", proof = "") {
  words <- as.character(words)
  if (anyNA(words)) stop_at("words", "a word is NA")
  case <- bytes_of(case, "case")
  proof <- bytes_of(proof, "proof")
  switch(welungad_way(),
    library = .Call(C_welungad_call, enc2utf8(words), case, proof),
    # a path has the bytes that R's own functions give it, also in a locale that isn't UTF-8
    program = run_program(program_path(), enc2native(words), case, proof),
    stop_without_way()
  )
}

# Stops since there is no way to the proved call, or not the one that the option names.
stop_without_way <- function() {
  wish <- getOption("welungad.way")
  if (identical(wish, "library")) stop("the option welungad.way is \"library\", and the package was installed without it", call. = FALSE)
  lacks <- if (is.null(wish)) "neither the C library nor the program welungad is found: " else "the program welungad is not found: "
  stop(lacks, how_to_find_program, call. = FALSE)
}

how_to_find_program <- paste("let the environment variable WELUNGAD name the program, or put it on the path;",
  "./install PREFIX, in a checkout of Welungad, makes both, as its README says")

# A raw vector as it is, one text as it is, several texts as lines.
bytes_of <- function(x, what) {
  if (is.raw(x)) return(x)
  if (!is.character(x) || anyNA(x)) stop_at(what, "a raw vector, a text or lines are needed")
  charToRaw(if (length(x) == 1) enc2utf8(x) else paste0(enc2utf8(x), "\n", collapse = ""))
}

# Runs the program as a process. The word that names the file of the proof is replaced by the name of a file that has it.
run_program <- function(program, words, case, proof) {
  place <- tempfile("welungad-")
  files <- paste0(place, c("-case", "-proof", "-text"))
  on.exit(unlink(files))
  write_whole(case, files[1])
  at <- file_word(words)
  if (!is.na(at)) {
    write_whole(proof, files[2])
    words[at] <- files[2]
  }
  status <- start_program(program, words, files[1], files[3])
  list(status = status, text = text_of_file(files[3]))
}

# Writes bytes to a file. Stops if the file does not get all of them: on a full disk R only warns, and leaves a part.
write_whole <- function(bytes, path) {
  said <- function(condition) gsub(" +", " ", conditionMessage(condition))
  cause <- tryCatch({
    writeBin(bytes, path)
    if (file.size(path) != length(bytes)) "it is not whole"
  }, warning = said, error = said)
  if (!is.null(cause)) stop(path, " can't be written: ", cause, call. = FALSE)
}

# The place of the word that names the file of the proof: after check the first word that is neither an option nor its value.
file_word <- function(words) {
  if (length(words) < 2 || words[1] != "check") return(NA_integer_)
  at <- 2L
  while (at <= length(words) && startsWith(words[at], "--")) at <- at + if (grepl("=", words[at], fixed = TRUE)) 1L else 2L
  if (at <= length(words)) at else NA_integer_
}

# Starts the program and returns its status.
start_program <- function(program, words, input, output) {
  status <- run_words(c(program, words), stdin = input, stdout = output)
  if (status > 128 && status < 160) stop("the program ", program, " was ended by signal ", status - 128, call. = FALSE)
  if (!status %in% 0:10 || !file.exists(output)) stop("the program ", program, " can't be run: it ends with ", status, call. = FALSE)
  as.integer(status)
}

# Runs words as a command with these files, and returns its status: 128 and the number of a signal that ended it. A terminal sends an
# interrupt to the command, to the shell and to R, and R does not see it while it waits. So the shell notes it, and R is interrupted then.
# The shell adds 100 to each status, since R returns the number of a signal that ended the shell itself as if it were a status.
run_words <- function(words, stdin = "/dev/null", stdout = "/dev/null", stderr = "/dev/null") {
  command <- paste(c(shQuote(words), "<", shQuote(stdin), ">", shQuote(stdout), "2>", shQuote(stderr)), collapse = " ")
  interrupted <- 128L + tools::SIGINT
  note <- paste0("interrupted=; trap 'interrupted=", interrupted, "' INT; ")
  status <- suppressWarnings(system(paste0(note, command, "; ended=$?; exit $((${interrupted:-$ended} + 100))")))
  if (status %in% c(tools::SIGINT, interrupted + 100L)) interrupt(words[1])
  # 127 is of a shell that cannot be started
  if (status == 127L) status else (status - 100L) %% 256L
}

# Interrupts R, as the command was.
interrupt <- function(command) {
  tools::pskill(Sys.getpid(), tools::SIGINT)
  Sys.sleep(1) # which ends at once, unless this session ignores interrupts
  stop(command, " was interrupted", call. = FALSE)
}

text_of_file <- function(path) {
  text <- rawToChar(readBin(path, "raw", file.size(path)))
  Encoding(text) <- "UTF-8"
  text
}
