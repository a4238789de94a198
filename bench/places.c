/* Writes the latitudes, and then the longitudes, of the points of each message of a file as numbers of 64 bits, by ecCodes:
   places FILE >OUT. Built by places.sh. */
#include <eccodes.h>
#include <stdio.h>
#include <stdlib.h>

int main(int argc, char **argv)
{
    FILE *in = argc == 2 ? fopen(argv[1], "rb") : NULL;
    codes_handle *handle;
    int error = 0;
    if (in == NULL)
        return 1;
    while ((handle = codes_handle_new_from_file(NULL, in, PRODUCT_GRIB, &error)) != NULL) {
        long points = 0;
        size_t n = 0;
        double latitude, longitude, value, *latitudes, *longitudes;
        /* 1: values are not decoded (GRIB_GEOITERATOR_NO_VALUES of its own headers). */
        codes_iterator *iterator = codes_grib_iterator_new(handle, 1, &error);
        if (error || codes_get_long(handle, "numberOfDataPoints", &points))
            return 1;
        latitudes = malloc(sizeof *latitudes * (size_t)points);
        longitudes = malloc(sizeof *longitudes * (size_t)points);
        if (latitudes == NULL || longitudes == NULL)
            return 1;
        while (n < (size_t)points && codes_grib_iterator_next(iterator, &latitude, &longitude, &value)) {
            latitudes[n] = latitude;
            longitudes[n++] = longitude;
        }
        if (fwrite(latitudes, sizeof *latitudes, n, stdout) != n || fwrite(longitudes, sizeof *longitudes, n, stdout) != n)
            return 1;
        free(latitudes);
        free(longitudes);
        codes_grib_iterator_delete(iterator);
        codes_handle_delete(handle);
    }
    return error != 0 || fclose(stdout) != 0;
}
