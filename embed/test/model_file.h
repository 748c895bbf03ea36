/* Files of saved stores in plain C, written from the model's list and read record by record. */
#ifndef MODEL_FILE_H
#define MODEL_FILE_H

#include "model.h"

/* Writes the file of the model's set, and returns how many bytes it has. */
size_t model_save(const Model *model, uint8_t *out);

/* What a load into so many words and page bytes gives; with 0 the model has the file's shape and records. It has to
   have room for them. */
MdehMakeResult model_load(Model *model, const uint8_t *file, size_t size, size_t words, size_t bytes);

#endif
