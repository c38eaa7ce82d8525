// Adds the amounts of the rows whose day and price are asked for. A request has the address of the first row, how many there
// are, the least price, and the first and the last day.
#include "bpfagent_program.h"

struct row {
    uint32_t day;
    uint32_t price;
    uint64_t amount;
};

enum status { DONE = REQUEST_DONE, WRONG_ADDRESS };

uint64_t program(struct request *request)
{
    for (;;) {
        uint64_t number = next_request(request), sum = 0;
        const struct row *row = (const struct row *)request->arguments[0];
        uint64_t rows = request->arguments[1], price = request->arguments[2];
        uint64_t first = request->arguments[3], last = request->arguments[4];
        if (rows > UINT32_MAX || !is_inside(row, rows * sizeof *row)) {
            answer_request(request, number, 0, WRONG_ADDRESS);
            continue;
        }
        for (const struct row *end = row + rows; row != end; row++)
            if (row->price >= price && row->day >= first && row->day <= last)
                sum += row->amount;
        answer_request(request, number, sum, DONE);
    }
}
