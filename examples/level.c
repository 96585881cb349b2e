/* level X1 Y1 X2 Y2 < tilted.pgm > level.pgm: makes the graticule line through two points level. */
#include <ctype.h>
#include <stdio.h>
#include <stdlib.h>
#include <straightener.h>

static void stop_if(int wrong, const char *words)
{
    if (!wrong)
        return;
    fprintf(stderr, "level: %s\n", words);
    exit(1);
}

static int32_t coordinate(const char *word)
{
    char *end;
    long value = strtol(word, &end, 10);
    stop_if(end == word || *end != '\0' || value != (int32_t)value, "a column or row is not a whole number");
    return (int32_t)value;
}

/* The next number of the PGM header, after white space and comments; 0 where there is none. */
static size_t header_number(void)
{
    size_t number = 0;
    for (char mark[2]; scanf(" %1[#]%*[^\n]", mark) == 1;) {}
    return scanf("%9zu", &number) == 1 ? number : 0;
}

int main(int argc, char **argv)
{
    stop_if(argc != 5, "which line? Its left point's column and row, then its right point's");
    straightener_step step = straightener_level(coordinate(argv[1]), coordinate(argv[2]),
                                                coordinate(argv[3]), coordinate(argv[4]));
    stop_if(step.number != 0, straightener_words(step.number));
    const char *no_picture = "the input is not a whole raw PGM picture of 256 greys";
    int raw = getchar() == 'P' && getchar() == '5';
    size_t width = header_number(), height = header_number(), white = header_number();
    stop_if(!raw || white != 255 || !isspace(getchar()), no_picture);
    size_t room = straightener_work_places(width, height), places = room == 0 ? 0 : width * height;
    uint8_t *greys = malloc(places + 1);
    int32_t *picture = malloc((2 * places + room + 1) * sizeof *picture); /* then the result, then work */
    stop_if(greys == NULL || picture == NULL, "there is too little memory");
    stop_if(fread(greys, 1, places, stdin) != places, no_picture);
    int32_t *result = picture + places, *work = result + places;
    for (size_t k = 0; k < places; k++)
        picture[k] = 128 * greys[k]; /* 128 units to one grey */
    straightener_setting middle = {.kernel = STRAIGHTENER_SPLINE, .cx = width / 2, .cy = height / 2};
    straightener_change turned = straightener_with_step(middle, step.value);
    straightener_answer answer = straightener_straighten(width, height, turned.setting, picture, places,
                                                         result, places, work, room);
    stop_if(answer.number != 0, straightener_words(answer.number));
    answer = straightener_greys_out(width, height, result, places, greys, places);
    stop_if(answer.number != 0, straightener_words(answer.number));
    printf("P5\n%zu %zu\n255\n", width, height);
    fwrite(greys, 1, places, stdout);
    stop_if(fflush(stdout) != 0 || ferror(stdout), "the output cannot be written");
}
