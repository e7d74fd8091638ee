//! What `call --help` prints.

pub const HELP: &str = "\
call: writes, shows, explains and proposes calls for package-auction prices

    call assemble FILE [-o OUT]   makes a call from its text, and writes it to OUT or to standard output
    call show FILE [--json]       prints a call as that text, with the figures to redo the sum as comments;
                                  of a book alone v, and σ of each set of its clients
    call explain FILE [--json]    says in words which question a refused call fails, where and by how much
    call propose FILE [-o OUT]    makes a call from a book: its sheet is proposed by a method that is not
                                  proved, and written only if the proved library accepts it
    call --help, call --version   print this, and the version

FILE of show, explain and propose is a call, a book, or the text of one. FILE - is standard input, and OUT -
standard output. After -- every word is a FILE. No more than 1,048,576 bytes of a file are read.

The command never decides. The number and the prices that it prints are the proved library's answer, and
v and σ are made of the library's greatest values; all other words and figures are worked out beside it.
--json prints one object with all of them; docs/CALLS.md has its fields.

The text, one line for each thing, in this order. '#' begins a comment. Numbers are whole and decimal.

    book version 1                      the line may be left out: version 1; 'length N' may be added
    kind 1 supply 2 reserve 10          1 to 4 kinds of hour: hours for sale, reserve per hour
    client 1 standing                   1 to 6 clients; 'standing' may be left out; 'status N' for other bytes
    client 2 withdrawn
    bid 1 client 1 hours 2 amount 90    0 to 48 bids; 'hours' has a number for each kind
    bid 2 client 2 hours 2 amount 70
    sheet q 1 s 1 G 20                  G may be left out: 0; 'version N' and 'length N' may be added
    winner 0 bid 1 X 70 Z 1 R 0 T 0     by rising client, numbered from 0; Z, R and T may be left out: 0
    set 1 winners 0 Y 0 U 0             a set of winners; its number or 'winners' may be left out;
                                        Y and U may be left out, and so may the line: 0

The first number of kind, client, bid and winner lines may be left out; where it stands it is the next one.
Any number that fits its bytes can be written: whether it is in range is for the questions to ask.
A text without a sheet makes a book alone. docs/CALLS.md has an example; docs/FORMAT.md the questions.
Faults of a text are told all at once on standard error, each as FILE:LINE:COLUMN: and what is wrong.

Exit status
    0   assemble, propose: the call is written; show: all is shown; explain: the call is accepted
    1   show: question 1, 2 or 6 stops it, and standard error says where; explain: the call is refused;
        propose: the book is refused, or the proposal is, and nothing is written
    2   the command line is wrong, or the text is
    3   a file cannot be read or written
";
